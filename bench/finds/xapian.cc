// Xapian as a peer over a pipe.
//   xapian fill PATH [positions]  makes a database of the lines of its input, committed each 4,096;
//                                 with positions of words, which phrases want
//   xapian delete PATH     deletes the documents of the numbers in its input, and commits
//   xapian merge TO PATH.. at each line copies all of these, one behind the other, to one database of
//                          compact tables, synced, and answers `merged`
//   xapian ask PATH        answers a line each, as the program does
// A line to ask has words and AND, OR, NOT behind what they join: `a b AND`; NOT takes the second
// from the first. `a+b` is a phrase, `a*` the words that begin so, and `*` is every document.
#include <algorithm>
#include <cctype>
#include <iostream>
#include <set>
#include <sstream>
#include <string>
#include <vector>
#include <xapian.h>

static std::vector<std::string> words_of(const std::string &text)
{
    std::vector<std::string> words;
    std::string word;
    for (unsigned char byte : text + " ")
        if (std::isalnum(byte) || byte >= 128)
            word += std::tolower(byte);
        else if (!word.empty()) {
            words.push_back(word.substr(0, 200));
            word.clear();
        }
    return words;
}

static void add_words(Xapian::Document &document, const std::string &text, bool positions)
{
    const std::vector<std::string> words = words_of(text);
    if (positions) {
        Xapian::termpos place = 0;
        for (const std::string &word : words)
            document.add_posting(word, ++place);
        return;
    }
    for (const std::string &word : std::set<std::string>(words.begin(), words.end()))
        document.add_boolean_term(word);
}

static void fill(const char *path, bool positions)
{
    Xapian::WritableDatabase base(path, Xapian::DB_CREATE_OR_OVERWRITE);
    std::string text;
    for (int count = 1; std::getline(std::cin, text); count++) {
        Xapian::Document document;
        document.set_data(text);
        add_words(document, text, positions);
        base.add_document(document);
        if (count % 4096 == 0)
            base.commit();
    }
    base.commit();
}

static void erase(const char *path)
{
    Xapian::WritableDatabase base(path);
    Xapian::docid number;
    while (std::cin >> number)
        base.delete_document(number);
    base.commit();
}

static void merge(const char *to, char **paths, int count)
{
    std::string line;
    while (std::getline(std::cin, line)) {
        Xapian::Database all;
        for (int i = 0; i < count; i++)
            all.add_database(Xapian::Database(paths[i]));
        all.compact(std::string(to));
        std::cout << "merged" << std::endl;
    }
}

static Xapian::Query leaf_of(std::string token)
{
    if (token == "*")
        return Xapian::Query::MatchAll;
    if (token.back() == '*') {
        token.pop_back();
        return Xapian::Query(Xapian::Query::OP_WILDCARD, token);
    }
    if (token.find('+') == std::string::npos)
        return Xapian::Query(token);
    std::replace(token.begin(), token.end(), '+', ' ');
    const std::vector<std::string> words = words_of(token);
    return Xapian::Query(Xapian::Query::OP_PHRASE, words.begin(), words.end(), words.size());
}

static Xapian::Query query_of(const std::string &line)
{
    std::vector<Xapian::Query> stack;
    std::istringstream tokens(line);
    std::string token;
    while (tokens >> token) {
        if (token != "AND" && token != "OR" && token != "NOT") {
            stack.push_back(leaf_of(token));
            continue;
        }
        const Xapian::Query second = stack.back();
        stack.pop_back();
        const auto join = token == "AND" ? Xapian::Query::OP_AND
            : token == "OR"              ? Xapian::Query::OP_OR
                                         : Xapian::Query::OP_AND_NOT;
        stack.back() = Xapian::Query(join, stack.back(), second);
    }
    return stack.back();
}

static void ask(const char *path)
{
    const Xapian::Database base(path);
    Xapian::Enquire enquire(base);
    enquire.set_weighting_scheme(Xapian::BoolWeight());
    enquire.set_docid_order(Xapian::Enquire::ASCENDING);
    std::string line, reply;
    while (std::getline(std::cin, line)) {
        enquire.set_query(query_of(line));
        const Xapian::MSet found = enquire.get_mset(0, base.get_doccount());
        reply = "found " + std::to_string(found.size()) + ":";
        for (auto at = found.begin(); at != found.end(); ++at) {
            reply += ' ';
            reply += std::to_string(*at);
        }
        std::cout << reply << std::endl;
    }
}

int main(int argc, char **argv)
{
    const std::string task = argc > 2 ? argv[1] : "";
    std::ios::sync_with_stdio(false);
    if (task == "fill")
        fill(argv[2], argc > 3);
    else if (task == "delete")
        erase(argv[2]);
    else if (task == "merge" && argc > 3)
        merge(argv[2], argv + 3, argc - 3);
    else if (task == "ask")
        ask(argv[2]);
    else
        return 2;
}
