"""How many bytes a store reads: of a look-up, of a delete, and of a find that is asked again."""

import unittest

from . import scripts

TEXTS = ("", "a", "a b", "one two", "three", "four five six", "seven")

# What opening reads: two gates, two generations of 8 bytes, a body of 8,192, a table of 40 bytes a
# segment, and the segments, each whole, since none has more than 4,097 bytes: headers of 24 bytes,
# entries of 12, texts, lists, dictionaries.
OPENING = 2 + 16 + 8192 + 3 * 40 \
    + 3 * 24 + 107 * 12 + (479 + 34 + 7) + (178 + 46 + 10) + (76 + 74 + 19)


def text_of(number):
    """The text of a document."""
    return TEXTS[number % 7]


def entries_read(number):
    """How many entries of a directory are read at most. Numbers rise, so where one is missing a
    number's entry is one of two, and else it is known which one it is."""
    return 2 if number <= 100 else 1


def add_of(number):
    """The line that adds a document; in a script `{ *0}` keeps the blank before an empty text."""
    return f"add {text_of(number)}{{ *0}} => added {number}"


class Reading(unittest.TestCase):
    """A store with three segments: of documents 1 to 100 without 50, of documents 101 to 107, and
    of document 108."""

    def store(self):
        """The lines that make it."""
        lines = ["!disk 131072", "!create => created"]
        for number in range(1, 109):
            lines.append(add_of(number))
            if number == 50:
                lines.append("delete 50 => deleted 50")
            if number in (100, 107, 108):
                lines.append("commit => committed")
        return [*lines, "!close"]

    def reads(self, sessions):
        """How many bytes each of the sessions reads on the store, whose lines are answered as they
        say."""
        lines = self.store()
        for session in sessions:
            lines += ["!open => opened", *session, "!close", "!reads"]
        got = scripts.answers([[line.partition(" => ")[0] if " => " in line else line
                                for line in lines]])[0]
        for line, answer in zip(lines, got):
            asked, _, wanted = line.partition(" => ")
            if asked != "!reads":
                self.assertEqual(answer, wanted.replace("{ *0}", ""), asked)
        return [int(answer) for line, answer in zip(lines, got) if line == "!reads"]

    def test_a_look_up_reads_few_bytes(self):
        """The 12 bytes of each entry that is read, and the text."""
        numbers = range(1, 109)
        shows = [[f"show {n} => text {text_of(n)}{{ *0}}" if n != 50
                  else "show 50 => refused no such document"] for n in numbers]
        for number, read in zip(numbers, self.reads(shows)):
            with self.subTest(number=number):
                self.assertLessEqual(read, OPENING + 12 * entries_read(number)
                                     + len(text_of(number)))

    def test_a_delete_reads_few_bytes(self):
        """The entry is looked for once, and no text is read."""
        numbers = range(1, 109)
        deletes = [[f"delete {n} => deleted {n}"] * (n != 50)
                   + [f"delete {n} => refused no such document"] for n in numbers]
        for number, read in zip(numbers, self.reads(deletes)):
            with self.subTest(number=number):
                self.assertLessEqual(read, OPENING + 12 * entries_read(number))

    def test_a_look_up_beside_the_segments_reads_nothing(self):
        """A number above all of the segments lies in none of them."""
        beside = ["add b => added 109", "show 109 => text b", "show 0 => refused no such document",
                  "show 110 => refused no such document",
                  "show 4294967295 => refused no such document",
                  "delete 110 => refused no such document", "delete 109 => deleted 109",
                  "delete 109 => refused no such document", "count => count 107 next 110"]
        self.assertEqual(self.reads([beside]), [OPENING])

    def test_texts_near_each_other_are_read_at_once(self):
        """Of 100 documents that have two words a phrase of them reads the directory and the texts,
        3 bytes each, beside what the words read."""
        lines = ["!disk 131072", "!create", *["add a b"] * 100, "commit", "!close"]
        for query in ("a AND b", '"a b"'):
            lines += ["!open", f"find {query}", "!close", "!calls"]
        got = scripts.answers([lines])[0]
        words, row = (answer for line, answer in zip(lines, got) if line == "!calls")
        self.assertEqual(row.count("r"), words.count("r") + 2)

    def test_a_find_again_reads_fewer_bytes(self):
        """4,096 documents in one list are found once and twice, by a store that keeps no decoded
        block and by one that keeps 64 of them."""
        one, two, one_kept, two_kept = read_by(4096, [
            (blocks, ["find a"] * finds) for blocks in (0, 64) for finds in (1, 2)])
        self.assertLess(one_kept, two_kept)
        self.assertLess(two_kept - one_kept, two - one)

    def test_more_words_read_a_header_once(self):
        """No document has the words, so that nothing is read but the header and the dictionary,
        which is short."""
        one, more = read_by(2, [(0, ["find z"]), (0, ["find z AND y OR z"])])
        self.assertEqual(one, more)


def read_by(count, sessions):
    """How many bytes are read from opening to closing by each session, of so many decoded blocks
    and these lines, over so many committed documents in one list."""
    lines = ["!disk 131072", "!create", *["add a"] * count, "commit", "!close"]
    for blocks, asked in sessions:
        lines += [f"!blocks {blocks}", "!open", *asked, "!close", "!reads"]
    got = scripts.answers([lines])[0]
    if got[-1] == "0" or any(answer.startswith("refused") for answer in got):
        raise ValueError(f"nothing was read: {got[-9:]}")
    return [int(answer) for line, answer in zip(lines, got) if line == "!reads"]
