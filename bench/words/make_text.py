"""Writes documents, one a line, for measure.py.

    make_text.py SOURCE MEGABYTES > documents

SOURCE is English text; its white space becomes single spaces, and it is cut at spaces into documents
of about 7,500 bytes, or of more where they would be too many for the buffer. A text that ends too
soon is begun again. An empty SOURCE stands for words drawn by a seeded generator, their frequencies
by Zipf's law, from /usr/share/dict/words or, where that is absent, from words made of syllables.
"""

import itertools
import pathlib
import random
import sys

DOCUMENT_BYTES = 7_500
MOST_DOCUMENTS = 4_096
MOST_BYTES = 67_108_864
SEED = 2008


def cut(text, total):
    """Documents of about one size, together about `total` bytes and at most MOST_DOCUMENTS."""
    least = max(DOCUMENT_BYTES, total // (MOST_DOCUMENTS - 6))
    words = text.split()
    document, size, written = [], 0, 0
    for word in itertools.cycle(words):
        document.append(word)
        size += len(word.encode()) + 1
        if size >= least:
            yield " ".join(document)
            written += size
            document, size = [], 0
            if written >= total:
                return


def vocabulary():
    """Words for a text drawn by chance."""
    listed = pathlib.Path("/usr/share/dict/words")
    if listed.exists():
        words = listed.read_text(errors="ignore").split()
    else:
        syllables = ["ba", "con", "de", "er", "fi", "ing", "la", "ment", "or", "pre", "st", "un"]
        words = ["".join(parts) for n in (1, 2, 3, 4) for parts in itertools.product(syllables, repeat=n)]
    random.Random(SEED).shuffle(words)
    return words[:50_000]


def drawn(total):
    """A text of about `total` bytes with Zipf's frequencies."""
    words = vocabulary()
    weights = list(itertools.accumulate(1 / rank for rank in range(1, len(words) + 1)))
    generator = random.Random(SEED)
    return " ".join(generator.choices(words, cum_weights=weights, k=total // 6))


def main():
    source, megabytes = pathlib.Path(sys.argv[1]), float(sys.argv[2])
    total = min(int(megabytes * 1_000_000), MOST_BYTES - 32_768)
    text = source.read_text(errors="ignore") or drawn(total)
    for document in itertools.islice(cut(text, total), MOST_DOCUMENTS):
        sys.stdout.write(document + "\n")


if __name__ == "__main__":
    main()
