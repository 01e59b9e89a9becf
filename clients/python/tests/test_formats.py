"""The bytes that docs/FORMATS.md shows are those that the program writes."""

import re
import struct
import unittest

from rubewola import Store

from support import TOP, Stores

UNIT, BODY_A, BODY_B, FIRST = 512, 1_024, 9_216, 17_408
TIMES = {"four": 4, "fifteen": 15}


def shown(text):
    """The bytes that a text shows, as `00 01`, or fifteen `00`."""
    found = re.findall(r"(?:(\w+) (?:times )?)?`([0-9A-F]{2}(?: [0-9A-F]{2})*)`", text)
    return b"".join(bytes.fromhex(spelled) * TIMES.get(times, 1) for times, spelled in found)


class Formats(Stores):
    def setUp(self):
        super().setUp()
        text = (TOP / "docs/FORMATS.md").read_text("utf-8")
        cells = (re.split(r" \| ", line.strip("| ")) for line in text.splitlines()
                 if line.startswith("| "))
        self.rows = {row[0]: row[1] for row in cells if len(row) == 2}
        self.text = " ".join(text.split())

    def bytes_of(self, *begins):
        """What the rows that begin so show, one behind the other."""
        found = [[shown(cell) for head, cell in self.rows.items() if head.startswith(begin)]
                 for begin in begins]
        self.assertEqual([len(each) for each in found], [1] * len(begins), begins)
        return b"".join(each for each, in found)

    def made(self, *texts):
        """The bytes of a store of 64 units behind a commit of these texts."""
        with Store.create(self.store, 64) as store:
            self.assertEqual(list(store.add_all(texts)), list(range(1, len(texts) + 1)))
            store.commit()
        return self.store.read_bytes()

    def assert_at(self, there, place, wanted, size=None):
        """The bytes stand at a place, and zeros behind them up to a size."""
        self.assertTrue(wanted)
        self.assertEqual(there[place:place + (size or len(wanted))],
                         wanted.ljust(size or len(wanted), b"\0"))

    def segment(self, there):
        """The list and the dictionary of the segment behind the bodies."""
        _, count, texts, postings, words, _ = struct.unpack_from("<6I", there, FIRST)
        begin = FIRST + 24 + 12 * count + texts
        return there[begin:begin + postings], there[begin + postings:begin + postings + words]

    def test_a_new_store(self):
        with Store.create(self.store, 64):
            pass
        there = self.store.read_bytes()
        self.assertEqual(len(there), 64 * UNIT)
        self.assert_at(there, 0, b"\xa7", BODY_A)
        self.assert_at(there, BODY_A, self.bytes_of("a new store on 64 units"), BODY_B - BODY_A)

    def test_a_first_commit(self):
        there = self.made("a b", "a")
        self.assertEqual((there[0], there[UNIT]), (0xA7, 0xA7))
        self.assert_at(there, BODY_B, self.bytes_of("after a first commit"), FIRST - BODY_B)
        self.assert_at(there, FIRST + UNIT, self.bytes_of("its table at unit 35"), UNIT)
        kind_2 = self.text.partition("And these 78 in kind 2")[2]
        header, = re.findall(r"\| header \| (.*?) \|", kind_2)
        rest = self.bytes_of("entry of 1", "entry of 2", "texts", "list of `a`", "list of `b`",
                             "where the one group", "`a`: length", "`b`: shared")
        self.assertEqual(len(shown(header) + rest), 78)
        self.assert_at(there, FIRST, shown(header) + rest, UNIT)

    def test_a_deletion_list(self):
        self.made("a b", "a")
        with Store(self.store) as store:
            store.delete(1)
            store.commit()
        there = self.store.read_bytes()
        self.assertEqual(struct.unpack_from("<QIIQ2I", there, BODY_A + 8), (3, 64, 3, 2, 1, 37))
        self.assert_at(there, 36 * UNIT, self.bytes_of("the list, at unit 36"), UNIT)
        self.assert_at(there, 37 * UNIT + 24, self.bytes_of("in the table at unit 37"))

    def test_posting_lists(self):
        postings, _ = self.segment(self.made(*["a"] * 128))
        self.assertEqual(postings, self.bytes_of("1 to 128"))
        self.store.unlink()
        with Store.create(self.store, 4_096) as store:
            list(store.add_all("b" if number in (5, 829) else "" for number in range(1, 830)))
            store.commit()
        postings, _ = self.segment(self.store.read_bytes())
        self.assertEqual(postings, self.bytes_of("5, 829"))

    def test_a_dictionary(self):
        _, words = self.segment(self.made("new newt"))
        example = self.text.partition("`new` (frequency 1")[2].partition(". ##")[0]
        self.assertEqual(words, shown(example))

    def test_variable_bytes(self):
        table = self.text.partition("## Variable bytes")[2].partition("## ")[0]
        rows = re.findall(r"\| ([\d,]+) \| (`.*?`) \|", table)
        self.assertEqual(len(rows), 5)
        for number, spelled in rows:
            number, spelled = int(number.replace(",", "")), shown(spelled)
            groups = [number >> 7 * place & 127 for place in range(5)]
            while len(groups) > 1 and not groups[-1]:
                groups.pop()
            self.assertEqual(spelled, bytes([*groups[:0:-1], groups[0] | 128]))


if __name__ == "__main__":
    unittest.main()
