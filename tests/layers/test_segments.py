"""Segments of both kinds, each prefix and each byte changed, and merges whose calls fail."""

import unittest

from . import made
from .lines import each_answered, hexed, numbers_in, spelled
from .test_lists import DICTIONARY, SEGMENT

# The segment of kind 1 of documents 1 `a b` and 2 `a`, and where its directory ends.
PLAIN = bytes.fromhex("01000000 02000000 04000000 00000000 00000000 00000000"
                      "01000000 00000000 03000000 02000000 03000000 01000000 61206261")
TEXTS = 48

# Its readers, and what they answer of the undamaged row: the numbers, four texts, two documents.
READERS = "numbers text:0 text:1 text:2 text:3 document:0 document:1".split()
READ = ["1,2", "none", "612062", "61", "none", "1 612062", "2 61"]

# Those of an indexed one: also whether numbers are there, the directory, the dictionary and words.
INDEXED_READERS = [*READERS, "has:0", "has:1", "has:2", "has:3", "directory", "dictionary", "terms",
                   "list:61", "list:62", "list:63"]
INDEXED_READ = [*READ, "no", "yes", "yes", "no", "1 1 0 3 1 612062 2 3 1 2 61", "63 15 2",
                "61:2:0:6 62:1:6:5", "2:0:6", "1:6:5", "-"]

WORDS = ("aa ab ac ad ae af ag ah ai aj ba bb bc bd be bf bg bh bi bj "
         "ma mb mc md me mf mg mh mi mj zq zr zs zt zu zv zw zx zy zz")


def on_disk(data):
    """A disk with bytes from unit 1 on."""
    return f"disk {512 + len(data)} {hexed(bytes(512) + data)}"


def surveys(cases, kind, readers):
    """What readers of a kind answer of bytes that are opened as so many: nothing where they are not
    opened, a list of answers else."""
    lines = [line for data, size in cases for line in (
        on_disk(data), f"segment 1 {len(data)} {size} {kind} {' '.join(readers)}")]
    for told in each_answered([lines])[0][1::2]:
        opened, *answers = told.split(" | ")
        yield answers if opened == "open" else opened


class Plain(unittest.TestCase):
    """Segments of kind 1."""

    def test_every_prefix_is_damaged(self):
        """It is no segment of its own length. As one of 52 bytes it opens where header and
        directory are there, and the texts that are cut off are damaged."""
        prefixes = [PLAIN[:n] for n in range(52)]
        self.assertEqual([*surveys([(data, len(data)) for data in prefixes], 1, READERS)],
                         ["damaged"] * 52)
        for n, told in enumerate(surveys([(data, 52) for data in prefixes], 1, READERS)):
            first = [*READ] if n == 51 else [READ[0], READ[1], "damaged", "", READ[4], "damaged", ""]
            first[3] = first[6] = "damaged"
            self.assertEqual(told, first if n >= TEXTS else "damaged", n)

    def test_every_changed_byte_is_survived(self):
        """A header is damaged, and nothing but damage is ever told of a directory. A text that is
        not UTF-8 is damaged, the other one and the numbers are still there."""
        cases = [(at, value) for at in range(52) for value in made.ENDS]
        changed = [(PLAIN[:at] + bytes([value]) + PLAIN[at + 1:], 52) for at, value in cases]
        for (at, value), told in zip(cases, surveys(changed, 1, READERS)):
            if value == PLAIN[at]:
                self.assertEqual(told, READ)
            elif at < 24:
                self.assertEqual(told, "damaged", at)
            elif at < TEXTS:
                self.assertTrue("disk" not in told, at)
            else:
                broken = (2, 5) if at < 51 else (3, 6)
                is_there = [answer != "damaged" for answer in told]
                self.assertEqual(is_there, [value == 0 or place not in broken
                                            for place in range(len(READ))], at)


class Indexed(unittest.TestCase):
    """Segments of kind 2."""

    def test_the_readers_answer(self):
        self.assertEqual([*surveys([(SEGMENT, 78)], 2, INDEXED_READERS)], [INDEXED_READ])

    def test_every_prefix_is_damaged(self):
        """To one reader at least, and no answer is another one than that of the whole."""
        told = surveys([(SEGMENT[:n], 78) for n in range(78)], 2, INDEXED_READERS)
        for n, answers in enumerate(told):
            if answers != "damaged":
                self.assertTrue(any("damaged" in answer for answer in answers), n)

    def test_every_changed_byte_is_survived(self):
        """No reader answers anything but damage, or a value."""
        cases = [(SEGMENT[:at] + bytes([value]) + SEGMENT[at + 1:], 78)
                 for at in range(78) for value in made.ENDS]
        for told in surveys(cases, 2, INDEXED_READERS):
            self.assertFalse("disk" in told or any("disk" in answer for answer in told), told)

    def test_bytes_of_no_header_are_damaged(self):
        """A dictionary is shorter than a header, and so is each of its prefixes."""
        for kind in (1, 2):
            cases = [(DICTIONARY[:n], n) for n in range(len(DICTIONARY) + 1)]
            cases += [(data, len(DICTIONARY)) for data in made.damages(DICTIONARY)
                      if len(data) == len(DICTIONARY)]
            self.assertEqual({*surveys(cases, kind, [])}, {"damaged"})

    def test_many_words_are_found_again(self):
        """Two documents with many words, so that the dictionary has several groups."""
        size, data = each_answered([[
            f"build 2 4 9 {hexed(WORDS.encode())} {hexed(b'zz tail aa')}"]])[0][0].split()
        self.assertEqual(len(data), 2 * int(size))
        words = [*WORDS.split(), "tail"]
        answers = next(surveys([(bytes.fromhex(data), size)], 2, ["postings", "terms", *[
            f"list:{hexed(word.encode())}" for word in words]]))
        self.assertEqual([term.split(":")[0] for term in answers[1].split()],
                         [hexed(word.encode()) for word in sorted(words)])
        places = [map(int, answer.split(":")[1:]) for answer in answers[2:]]
        lists = [bytes.fromhex(data)[int(answers[0]) + at:int(answers[0]) + at + n]
                 for at, n in places]
        told = each_answered([[f"decode {hexed(one)}" for one in lists]])[0]
        for word, numbers in zip(words, told):
            wanted = {"tail": [9], "aa": [4, 9], "zz": [4, 9]}.get(word, [4])
            self.assertEqual(numbers_in(numbers), wanted, word)


class Merges(unittest.TestCase):
    """Written to their place."""

    def test_each_failing_call_is_told(self):
        """The last call that prepares is a read, and so is the one that reads both texts. Then all
        bytes are written at once, and there is no further call."""
        third = spelled("01000000_01000000_01000000_{00*12}_03000000_00000000_01000000_63")
        made_so = f"disk 2048 {'00' * 512}{hexed(PLAIN)}{'00' * 460}{third}"
        prepared, written = (each_answered([[line for k in range(1, 40) for line in (
            made_so, f"fail {k}", f"{name} 1 -")]])[0][2::3] for name in ("prepare", "merge-into"))
        calls = prepared.index("75")
        self.assertGreater(calls, 0)
        self.assertEqual(prepared[:calls], ["disk"] * calls)
        self.assertEqual(written[:calls + 3], ["disk"] * (calls + 1) + ["not written", "75"])
