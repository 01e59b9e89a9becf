"""Dictionaries of many shapes by every way of reading, damage, and reads that fail."""

import unittest

from . import made
from .lines import each_answered, hexed, listed, shares
from .test_lists import DICTIONARY, NEVER, SEGMENT

# Where the dictionary of `a` and `b` lies in their segment.
IN_SEGMENT = "63 15 2"

# Terms that are there in small dictionaries, and some that are not.
TERMS = (b"", b"a", b"b", b"ne", b"new", b"newt", b"newts", b"o")

# The first key that is known, at each place, whatever it is.
PIVOTS = (0, 1, 0x6161_6162_0000_0000, (1 << 64) - 1)

# How many bytes a cursor reads ahead: too few for a word, some words, and the most.
AHEAD = (0, 40, 4_096)

# The term that is sought over failing sources, the eighteenth of 33, and its entry.
SOUGHT, FOUND = b"aaade", "18:85:5"


def entry(i):
    """What the i-th of many terms is added with."""
    return f"{i + 1}:{5 * i}:5"


def word(number):
    """A word of five letters `a` to `j`, the digits of a number below 100,000."""
    return bytes(ord("a") + int(digit) for digit in f"{number:05}")


def words(count):
    """So many words, of the even numbers."""
    return [word(2 * i) for i in range(count)]


def written(terms):
    """The dictionary of terms that rise. Behind the one before it none may be added twice."""
    items = [f"{hexed(term)}:{entry(i)}" for i, term in enumerate(terms)]
    twice = [" ".join(["dict", *items[max(0, i - 1):i + 1], item]) for i, item in enumerate(items)]
    told = shares([" ".join(["dict", *items]), *twice])
    if told[1:] != [f"not {hexed(term)}" for term in terms]:
        raise AssertionError(told[1:])
    size, data = told[0].split()
    data = b"" if data == "-" else bytes.fromhex(data)
    if len(data) != int(size):
        raise AssertionError(told[0])
    return data


def place(data, terms, at=0):
    """Where a dictionary lies, as a line has it."""
    return f"{at} {len(data)} {terms}"


def over(source, *lines):
    """What lines are answered over a source."""
    return each_answered([[f"source {hexed(source)}", *lines]])[0][1:]


class Dictionaries(unittest.TestCase):
    """Terms that are found, and those that are listed."""

    def are_found(self, there, asked, told):
        """What a source answers of terms, each with what is wanted: by look-ups, by windows, which
        ask as often, and the source below no more; and three times by each table of pivots."""
        told = iter(told)
        for _, wanted in asked:
            found, asks, _ = next(told).split()
            by_windows, windows_ask, below, _ = next(told).split()
            self.assertEqual((found, by_windows, windows_ask), (wanted, wanted, asks), there)
            self.assertLessEqual(int(below), int(asks))
            for _ in PIVOTS:
                self.assertEqual((next(told), next(told).split()[:-2]), ("", [wanted] * 3))

    def holds(self, terms):
        """A dictionary, also seven bytes behind the start of a source, gives each term by each way,
        and none that stands just behind one. Then it lists them all."""
        data, count = written(terms), len(terms)
        asked = [wanted for i, term in enumerate(terms)
                 for wanted in ((term, entry(i)), (term + b"\0", "-"))] + [(b"\xFF\xFF", "-")]
        listing = [f"{hexed(term)}:{entry(i)}" for i, term in enumerate(terms)] or ["-"]
        looked, begun = over(data, f"look {count} {' '.join(hexed(term) for term, _ in asked)}",
                             f"prefix {count} -")
        self.assertEqual(looked.split(), [wanted for _, wanted in asked])
        self.assertEqual(begun.split(), listing)
        there, amid = f"{NEVER} {place(data, count, 7)}", bytes([9] * 7) + data + bytes([9] * 3)
        for line in (f"prefix-in {there} -", *(f"passed-in {there} {ahead} -" for ahead in AHEAD)):
            self.assertEqual(over(amid, line)[0].split()[:-2], listing, line)
        parts = [asked[part::4] for part in range(4)]
        told = each_answered([[f"source {hexed(amid)}", *[
            line for term, _ in part for line in self.ways(there, hexed(term))]] for part in parts])
        for part, answers in zip(parts, told):
            self.are_found(there, part, answers[1:])

    def ways(self, there, term):
        """The lines that look a term up in each way."""
        yield f"look-in {there} {term}"
        yield f"look-windows {there} {term}"
        for pivot in PIVOTS:
            yield f"pivots {listed([pivot] * 16)}"
            yield f"near-in {there} {term} {term} {term}"

    def test_dictionaries_of_many_shapes_hold_their_terms(self):
        for count in (0, 1, 15, 16, 17, 33, 5_000):
            with self.subTest(count=count):
                self.holds(words(count))

    def test_longer_and_longer_terms(self):
        """Each is one byte longer than the one before, from none on; the last shares nothing."""
        self.holds([b"x" * n for n in range(301)] + [b"y"])

    def test_long_terms(self):
        """Of 100,000 bytes, that differ in the last one; and one that goes on."""
        front = b"b" * 100_000
        self.holds([b"a", front + b"a", front + b"b", front + b"ba", b"c"])

    def test_a_prefix_lists_its_terms(self):
        """Words that start with `ab` are those of the numbers from 1,000 to 1,999, and half of them
        are there."""
        terms = words(5_000)
        data = written(terms)
        for prefix, start, end in (("", 0, 5_000), ("a", 0, 5_000), ("aa", 0, 500),
                                   ("ab", 500, 1_000), ("aj", 4_500, 5_000),
                                   ("ajjji", 4_999, 5_000), ("ajjjj", 5_000, 5_000),
                                   ("b", 5_000, 5_000), ("A", 0, 0)):
            sought = hexed(prefix.encode())
            passes = [f"passed-in {NEVER} {place(data, 5_000)} {ahead} {sought}" for ahead in AHEAD]
            by_pivots = [line for pivot in PIVOTS
                         for line in (f"pivots {listed([pivot] * 16)}", *passes)]
            told = over(data, f"prefix 5000 {sought}", *passes, *by_pivots)
            wanted = [f"{hexed(terms[i])}:{entry(i)}" for i in range(start, end)] or ["-"]
            self.assertEqual(told[0].split(), wanted, prefix)
            by_cursor = [answer.split()[:-2] for answer in told[1:] if answer]
            self.assertEqual(by_cursor, [wanted] * len(AHEAD) * (1 + len(PIVOTS)), prefix)


class Asking(unittest.TestCase):
    """How often a source is asked."""

    def test_windows_ask_once(self):
        """Of 17 terms the second group is read: its offset and its term, which one piece has."""
        data = written(words(17))
        told = over(data, f"look-windows {NEVER} {place(data, 17)} {hexed(word(32))}")
        self.assertEqual(told, [f"{entry(16)} 2 2 0"])

    def test_each_window_keeps_its_bytes(self):
        """Over a source of a thousand bytes, of which the first window has the first 8, stretches
        by place and length: how often the source was asked behind each of them."""
        data = bytes(i % 251 for i in range(1_000))
        stretches = ((4, 4, 1), (4, 4, 1), (500, 100, 2), (6, 2, 2), (528, 100, 2), (528, 101, 3),
                     (4, 128, 3), (4, 129, 4), (528, 4, 4), (5, 3, 4), (990, 10, 5), (0, 4, 6))
        lines = ["window 0 1000 32 " + " ".join(f"{at}:{n}" for at, n, _ in stretches[:end])
                 for end in range(1, len(stretches) + 1)]
        for (at, n, asked), told in zip(stretches, over(data, *lines)):
            self.assertEqual(told.split()[-3:], [hexed(data[at:at + n]), str(asked), "0"])

    def test_no_window_goes_past_the_end(self):
        told = over(bytes(1_000), "window 0 1000 32 999:2 500:501")
        self.assertEqual(told, ["1000 damaged damaged 0 0"])

    def test_pivots_spare_asks(self):
        """Of 4,096 words each group begins with one that another look-up came by, once each word was
        looked up: then the two groups that a word stands between are asked for, by their offsets
        and their first terms, and pieces of 96 bytes of the first of them up to the word, each from
        the term on that the piece before has not whole.

        A term here has a byte for how much it keeps, one for how long its rest is, the rest, which
        is the last letter or at each fifth word the last two, and its numbers:
        - the fifth term of group 100: its numbers take 2 + 2 + 1 bytes, so one piece has it: 4 + 1;
        - the fifteenth: eleven terms take 9 * 8 + 2 * 9 = 90 bytes, and the twelfth goes past 96, so
          a second piece has it: 4 + 2;
        - the fifth of group 0: one piece: 4 + 1;
        - the tenth of the last group, behind which there is none: the numbers take 2 + 3 + 1 bytes,
          so ten terms take 8 * 9 + 2 * 10 = 92, and one piece has them: 2 + 1.

        A cursor to a term asks for both groups too, then for the offset of the first of them, and
        for one piece of 4,096 bytes, which has the terms up to the one behind it.
        """
        terms = words(4096)
        data = written(terms)
        there = f"{NEVER} {place(data, 4096)}"
        cases = ((1605, 5), (1615, 6), (5, 5), (4090, 3))
        begun = ((1605, 6), (5, 6), (4090, 4))
        told = over(data, f"pivots {listed([0] * 512)}",
                    f"near-in {there} {' '.join(map(hexed, terms))}",
                    *[f"near-in {there} {hexed(terms[at])}" for at, _ in cases],
                    *[f"passed-in {there} 4096 {hexed(terms[at])}" for at, _ in begun])
        self.assertEqual(told[1].split()[:-2], [entry(i) for i in range(4096)])
        self.assertEqual(told[2:], [f"{entry(at)} {asked} 0" for at, asked in cases]
                         + [f"{hexed(terms[at])}:{entry(at)} {asked} 0" for at, asked in begun])


class Damage(unittest.TestCase):
    """Bytes that are no dictionary."""

    def test_damaged_bytes_are_answered(self):
        """Each prefix, and each byte changed, of a dictionary and of one in a segment: a look-up
        gives an entry, none, or damage; a list has two terms at most, or is damaged. No read
        fails."""
        sought = " ".join(map(hexed, TERMS))
        for data, there in ((DICTIONARY, place(DICTIONARY, 2)), (SEGMENT, IN_SEGMENT)):
            listings = [line for term in TERMS for line in (
                f"prefix 2 {hexed(term)}", f"prefix-in {NEVER} {there} {hexed(term)}",
                f"prefix-windows {NEVER} {there} {hexed(term)}",
                *(f"passed-in {NEVER} {there} {ahead} {hexed(term)}" for ahead in AHEAD))]
            near = [line for term in TERMS for way in ("near-in", "near-windows") for line in (
                f"pivots {listed([1] * 16)}", f"{way} {NEVER} {there} {hexed(term)}")]
            asked = [line for damaged in made.damages(data) for line in (
                f"source {hexed(damaged)}", f"look 2 {sought}", f"look-in {NEVER} {there} {sought}",
                f"look-windows {NEVER} {there} {sought}", *near, *listings)]
            for line, told in zip(asked, each_answered([asked])[0]):
                self.is_answered(line.split(" "), told.split())

    def is_answered(self, words, told):
        """A line about a dictionary is answered by entries, by none, or by damage."""
        name = words[0]
        told = told[:len(told) - {"in": 2, "windows": 3}.get(name.partition("-")[2], 0)]
        if name.startswith(("prefix", "passed")):
            self.assertTrue(told in (["-"], ["damaged"]) or len(told) <= 2
                            and all(item.count(":") == 3 for item in told), words)
        elif name not in ("source", "pivots"):
            self.assertEqual(len(told), 8 if name.startswith("look") else 1)
            for answer in told:
                self.assertTrue(answer in ("-", "damaged") or answer.count(":") == 2, words)

    def test_a_dictionary_cut_short_is_damaged(self):
        """To whoever reads what is missing."""
        for n in range(len(DICTIONARY)):
            self.assertEqual(over(DICTIONARY[:n], f"look 2 {hexed(b'newt')}", "prefix 2 -"),
                             ["damaged", "damaged"], n)


class Failing(unittest.TestCase):
    """Each call of a source fails in its turn, once."""

    def setUp(self):
        self.data = written(words(33))
        self.there = place(self.data, 33)

    def asks(self, *before, line):
        """How often the source is asked for one of two terms."""
        return int(over(self.data, *before, line.format(NEVER))[-1].split()[-2])

    def test_a_failed_read_of_a_look_up(self):
        line, sought = f"look-in {{}} {self.there}", hexed(SOUGHT)
        first = self.asks(line=f"{line} {sought}")
        self.assertGreater(first, 2)
        for passes in range(first):
            told = over(self.data, f"{line.format(passes)} {sought} {sought}")[0].split()
            self.assertEqual((told[:2], told[-1]), (["disk", FOUND], "1"))

    def test_a_failed_read_by_pivots(self):
        """Once the table has its keys."""
        line, sought = f"near-in {{}} {self.there}", hexed(SOUGHT)
        filled = [f"pivots {listed([0] * 16)}", f"{line.format(NEVER)} {sought}"]
        first = self.asks(*filled, line=f"{line} {sought}")
        self.assertGreater(first, 2)
        for passes in range(first):
            told = over(self.data, *filled, f"{line.format(passes)} {sought} {sought}")[-1].split()
            self.assertEqual((told[:2], told[-1]), (["disk", FOUND], "1"))

    def test_a_failed_read_of_a_list(self):
        """Five of the words begin with `aaad`."""
        sought = hexed(b"aaad")
        for line in (f"prefix-in {{}} {self.there} {sought}",
                     *(f"passed-in {{}} {self.there} {ahead} {sought}" for ahead in AHEAD)):
            clean = over(self.data, line.format(NEVER))[0].split()
            self.assertEqual(len(clean) - 2, 5)
            for passes in range(int(clean[-2])):
                told = over(self.data, line.format(passes))[0].split()
                self.assertEqual((told[0], told[-1]), ("disk", "1"))

    def test_a_failed_read_of_a_window(self):
        """What a failed call leaves in a window is not lent."""
        sought = hexed(SOUGHT)
        told = over(self.data, f"look-windows 0 {self.there} {sought} {sought}")[0].split()
        self.assertEqual((told[:2], told[-1]), (["disk", FOUND], "1"))
