import java.io.BufferedReader;
import java.io.FileDescriptor;
import java.io.FileOutputStream;
import java.io.IOException;
import java.io.InputStreamReader;
import java.lang.invoke.MethodHandles;
import java.lang.invoke.VarHandle;
import java.nio.ByteBuffer;
import java.nio.ByteOrder;
import java.nio.channels.WritableByteChannel;
import java.nio.charset.StandardCharsets;
import java.nio.file.Path;
import java.util.ArrayDeque;
import java.util.Arrays;
import java.util.Deque;
import java.util.List;
import java.util.stream.IntStream;
import org.apache.lucene.analysis.Analyzer;
import org.apache.lucene.analysis.LowerCaseFilter;
import org.apache.lucene.analysis.Tokenizer;
import org.apache.lucene.analysis.standard.StandardTokenizer;
import org.apache.lucene.document.Document;
import org.apache.lucene.document.Field;
import org.apache.lucene.document.FieldType;
import org.apache.lucene.index.DirectoryReader;
import org.apache.lucene.index.IndexOptions;
import org.apache.lucene.index.IndexWriter;
import org.apache.lucene.index.IndexWriterConfig;
import org.apache.lucene.index.LeafReaderContext;
import org.apache.lucene.index.LogDocMergePolicy;
import org.apache.lucene.index.MergePolicy;
import org.apache.lucene.index.NoMergePolicy;
import org.apache.lucene.index.SerialMergeScheduler;
import org.apache.lucene.index.Term;
import org.apache.lucene.search.BooleanClause;
import org.apache.lucene.search.BooleanClause.Occur;
import org.apache.lucene.search.BooleanQuery;
import org.apache.lucene.search.IndexSearcher;
import org.apache.lucene.search.MatchAllDocsQuery;
import org.apache.lucene.search.PhraseQuery;
import org.apache.lucene.search.PrefixQuery;
import org.apache.lucene.search.Query;
import org.apache.lucene.search.ScoreMode;
import org.apache.lucene.search.SimpleCollector;
import org.apache.lucene.search.TermQuery;
import org.apache.lucene.store.Directory;
import org.apache.lucene.store.FSDirectory;
import org.apache.lucene.util.Version;

/**
 * Lucene as a peer over a pipe, by one thread.
 *
 * <pre>
 *   Lucene fill PATH [positions]  makes an index of the lines of its input, committed each 4,096, a
 *                                 segment each; with positions of words, which phrases want
 *   Lucene merge PATH             at each line the index becomes one segment, and `merged` is
 *                                 answered
 *   Lucene ask PATH               answers a line each, as the program does
 *   Lucene version                prints the version
 * </pre>
 *
 * A line to ask is one that xapian.cc takes. Words are those of Unicode (UAX #29) in small letters.
 * No score is reckoned, and no answer is kept for when the same is asked again.
 */
public final class Lucene {
    private static final String FIELD = "text";
    private static final int BATCH = 4_096;

    /** More than a batch takes while it is indexed, so that each makes one segment. */
    private static final double BUFFER_MEGABYTES = 512;

    /** Four bytes of an array as a number, the first the lowest. */
    private static final VarHandle FOUR_BYTES =
            MethodHandles.byteArrayViewVarHandle(int[].class, ByteOrder.LITTLE_ENDIAN);

    /** The four digits of each number that has no more, as such a number. */
    private static final int[] DIGITS = IntStream.range(0, 10_000).map(Lucene::digitsOf).toArray();

    private Lucene() {}

    private static int digitsOf(int number) {
        int digits = 0;
        for (int rest = number, place = 24; place >= 0; rest /= 10, place -= 8) {
            digits |= ('0' + rest % 10) << place;
        }
        return digits;
    }

    public static void main(String[] arguments) throws IOException {
        switch (arguments[0]) {
            case "fill":
                fill(arguments[1], arguments.length > 2);
                break;
            case "merge":
                merge(arguments[1]);
                break;
            case "ask":
                ask(arguments[1]);
                break;
            default:
                System.out.println(Version.LATEST);
        }
    }

    private static Analyzer words() {
        return new Analyzer() {
            @Override
            protected TokenStreamComponents createComponents(String field) {
                Tokenizer cut = new StandardTokenizer();
                return new TokenStreamComponents(cut, new LowerCaseFilter(cut));
            }
        };
    }

    private static BufferedReader input() {
        InputStreamReader characters = new InputStreamReader(System.in, StandardCharsets.UTF_8);
        return new BufferedReader(characters, 1 << 16);
    }

    private static IndexWriter writer(Directory folder, MergePolicy policy) throws IOException {
        IndexWriterConfig config = new IndexWriterConfig(words());
        config.setMergePolicy(policy);
        config.setMergeScheduler(new SerialMergeScheduler());
        config.setRAMBufferSizeMB(BUFFER_MEGABYTES);
        config.setUseCompoundFile(false);
        return new IndexWriter(folder, config);
    }

    private static FieldType kept(boolean positions) {
        FieldType type = new FieldType();
        type.setStored(true);
        type.setTokenized(true);
        type.setOmitNorms(true);
        type.setIndexOptions(
                positions ? IndexOptions.DOCS_AND_FREQS_AND_POSITIONS : IndexOptions.DOCS);
        type.freeze();
        return type;
    }

    private static void fill(String path, boolean positions) throws IOException {
        FieldType type = kept(positions);
        try (Directory folder = FSDirectory.open(Path.of(path));
                IndexWriter index = writer(folder, NoMergePolicy.INSTANCE)) {
            BufferedReader lines = input();
            String text;
            for (int count = 1; (text = lines.readLine()) != null; count++) {
                Document document = new Document();
                document.add(new Field(FIELD, text, type));
                index.addDocument(document);
                if (count % BATCH == 0) {
                    index.commit();
                }
            }
            index.commit();
        }
    }

    /** Segments are joined in their order, so a document keeps its number. */
    private static void merge(String path) throws IOException {
        LogDocMergePolicy neighbours = new LogDocMergePolicy();
        neighbours.setNoCFSRatio(0);
        try (Directory folder = FSDirectory.open(Path.of(path));
                IndexWriter index = writer(folder, neighbours)) {
            BufferedReader lines = input();
            while (lines.readLine() != null) {
                index.forceMerge(1);
                index.commit();
                System.out.println("merged");
            }
        }
    }

    private static void ask(String path) throws IOException {
        try (DirectoryReader index = DirectoryReader.open(FSDirectory.open(Path.of(path)))) {
            IndexSearcher searcher = new IndexSearcher(index);
            searcher.setQueryCache(null);
            Reply reply = new Reply();
            WritableByteChannel out = new FileOutputStream(FileDescriptor.out).getChannel();
            BufferedReader lines = input();
            String line;
            while ((line = lines.readLine()) != null) {
                reply.clear();
                searcher.search(queryOf(line), reply);
                ByteBuffer bytes = reply.finished();
                while (bytes.hasRemaining()) {
                    out.write(bytes);
                }
            }
        }
    }

    private static Query queryOf(String line) {
        Deque<Query> stack = new ArrayDeque<>();
        for (String token : line.split(" ")) {
            switch (token) {
                case "AND":
                    stack.push(joined(stack.pop(), Occur.FILTER, stack.pop(), Occur.FILTER));
                    break;
                case "OR":
                    stack.push(joined(stack.pop(), Occur.SHOULD, stack.pop(), Occur.SHOULD));
                    break;
                case "NOT":
                    stack.push(joined(stack.pop(), Occur.MUST_NOT, stack.pop(), Occur.FILTER));
                    break;
                default:
                    stack.push(leafOf(token));
            }
        }
        return stack.pop();
    }

    private static Query leafOf(String token) {
        if (token.equals("*")) {
            return new MatchAllDocsQuery();
        }
        if (token.endsWith("*")) {
            return new PrefixQuery(new Term(FIELD, token.substring(0, token.length() - 1)));
        }
        if (token.contains("+")) {
            return new PhraseQuery(FIELD, token.split("\\+"));
        }
        return new TermQuery(new Term(FIELD, token));
    }

    private static Query joined(Query second, Occur how, Query first, Occur firstHow) {
        BooleanQuery.Builder query = new BooleanQuery.Builder();
        clausesOf(first, firstHow).forEach(query::add);
        clausesOf(second, how).forEach(query::add);
        return query.build();
    }

    /** Those of an AND within an AND, and of an OR within an OR, are its own. */
    private static List<BooleanClause> clausesOf(Query query, Occur how) {
        if (query instanceof BooleanQuery && how != Occur.MUST_NOT) {
            List<BooleanClause> clauses = ((BooleanQuery) query).clauses();
            boolean either = clauses.stream().allMatch(it -> it.getOccur() == Occur.SHOULD);
            if (either == (how == Occur.SHOULD)) {
                return clauses;
            }
        }
        return List.of(new BooleanClause(query, how));
    }

    /** A reply's line: the numbers of documents as they are found, each behind a space. */
    private static final class Reply extends SimpleCollector {
        /** Room for what stands before the numbers, `found N:`. */
        private static final int HEAD = 32;

        /** A space and a number take so many bytes at most, since four are written at once. */
        private static final int LONGEST = 13;

        private byte[] bytes = new byte[1 << 16];
        private int end;
        private int found;
        private int first;

        void clear() {
            end = HEAD;
            found = 0;
        }

        @Override
        public ScoreMode scoreMode() {
            return ScoreMode.COMPLETE_NO_SCORES;
        }

        @Override
        protected void doSetNextReader(LeafReaderContext segment) {
            first = segment.docBase + 1;
        }

        @Override
        public void collect(int document) {
            if (bytes.length - end <= LONGEST) {
                bytes = Arrays.copyOf(bytes, 2 * bytes.length);
            }
            bytes[end++] = ' ';
            put(first + document);
            found++;
        }

        private void put(int number) {
            if (number >= DIGITS.length) {
                put(number / DIGITS.length);
                put(number % DIGITS.length, 0);
            } else {
                put(number, number < 10 ? 3 : number < 100 ? 2 : number < 1_000 ? 1 : 0);
            }
        }

        /** The four digits of a number, but for the first ones. */
        private void put(int number, int without) {
            FOUR_BYTES.set(bytes, end, DIGITS[number] >>> 8 * without);
            end += 4 - without;
        }

        ByteBuffer finished() {
            byte[] head = ("found " + found + ":").getBytes(StandardCharsets.US_ASCII);
            int start = HEAD - head.length;
            System.arraycopy(head, 0, bytes, start, head.length);
            bytes[end++] = '\n';
            return ByteBuffer.wrap(bytes, start, end - start);
        }
    }
}
