"""Posting lists, cursors over them and kept blocks, beside plain readings of their definitions."""

import unittest

from . import made, plain
from .lines import each_answered, hexed, listed, numbers_in, shares

# More calls than any line makes, so that none fails.
NEVER = 1 << 40

# The first of the 128 numbers up to the second greatest.
TOP = made.WORD - 129

SHORT = ([], [1], [5, 829], [made.WORD - 1])
TO_128 = made.apart(1, 1, 128)

# The lengths at which something new begins.
LENGTHS = (0, 1, 2, 127, 128, 129, 255, 256, 300, 2047, 2048, 2049)
LONG = (2047, 2048, 2049, 4095, 4097)

# Two blocks and a tail.
LIST = plain.list_of(made.apart(1, 1, 300))

# The segment of documents 1 `a b` and 2 `a`: its header, its directory, its texts, the lists of its
# two words, and its dictionary. And where these lists lie, and the dictionary, which is no list.
SEGMENT = bytes.fromhex(
    "02000000 02000000 04000000 0B000000 0F000000 02000000"
    "01000000 00000000 03000000 02000000 03000000 01000000 61206261"
    "02000000 81 81 01000000 81 00000000 81 61 82 80 86 80 81 62 81 86 85")
SEGMENT_PLACES = ((52, 6), (58, 5), (63, 15))

# The dictionary of `new` and `newt`, and where the lists lie that it speaks of.
DICTIONARY = bytes.fromhex("00000000 83 6E6577 81 80 85 83 81 74 81 85 85")
DICTIONARY_PLACES = ((0, 17), (0, 5), (5, 5))

# What a cursor that met a fault is asked then.
AFTER = [step for target in (0, 1, made.WORD - 1) for step in (f"seek:{target}", "next", "pass")]


def changes(data):
    """Bytes with each single one set to 00, to FF, and with one bit flipped."""
    for at, byte in enumerate(data):
        for new in (0x00, 0xFF, *(byte ^ 1 << k for k in range(8))):
            yield data[:at] + bytes([new]) + data[at + 1:]


class Lists(unittest.TestCase):
    """Numbers to bytes and back."""

    def come_back(self, lists):
        """Lists are spelled in each way as the plain coder does, and read back."""
        spelled = [hexed(plain.list_of(xs)) for xs in lists]
        words = [listed(xs) for xs in lists]
        asked = [line for data, xs in zip(spelled, words)
                 for line in (f"encode {xs}", f"into {xs}", f"decode {data}")]
        told = iter(shares(asked))
        for data, xs in zip(spelled, words):
            self.assertEqual([next(told), next(told), next(told)], [data, data, xs])

    def test_each_length_comes_back(self):
        self.come_back([made.apart(1, 1, count) for count in range(401)])
        self.come_back([made.apart(first, gap, count) for count in LONG
                        for first, gap in ((1, 1), (3, 1_000_003))])

    def test_up_to_the_greatest_number(self):
        self.come_back([made.apart(made.WORD - count, 1, count)
                        for count in (1, 2, 127, 128, 129, 300, 2048, 2049, 4097)])

    def test_each_gap_comes_back(self):
        self.come_back([made.apart(1, 1 << k, count) for k in range(24)
                        for count in (1, 127, 128, 129, 256, 300)])

    def test_uneven_numbers_come_back(self):
        self.come_back([made.uneven(made.WORD, count) for count in (200, 1000, 4097)])

    def test_two_million_numbers_come_back(self):
        self.come_back([made.uneven(2000, 2_000_000)])

    def test_longer_lists_have_their_bytes(self):
        """How long they are, and one byte: the width of the first block, or the last gap."""
        for first, count, length, at, byte in (
                (1, 128, 88, 24, 0x03), (1, 2048, 1108, 324, 0x03), (1, 2049, 1109, 1108, 0x81),
                (TOP, 128, 552, 24, 0x20)):
            data = bytes.fromhex(shares([f"encode {listed(made.apart(first, 1, count))}"])[0])
            self.assertEqual((len(data), data[at]), (length, byte))
            self.come_back([made.apart(first, 1, count)])

    def test_shapes_of_sixteen_blocks_are_read(self):
        for count in (2048, 2049):
            told = shares([f"shape {hexed(plain.list_of(made.apart(1, 1, count)))}"])
            self.assertEqual(told, [f"{count} 16 1108"])

    def test_shorter_prefixes_are_damaged(self):
        spelled = [plain.list_of(xs) for xs in (*SHORT, TO_128)]
        told = shares([f"decode {hexed(data[:n])}" for data in spelled for n in range(len(data))])
        self.assertEqual({*told}, {"damaged"})

    def agree(self, data):
        """What each change of bytes is answered is what the plain coder reads."""
        changed = [*changes(data), data]
        for bytes_there, got in zip(changed, shares([f"decode {hexed(one)}" for one in changed])):
            numbers = plain.spelled_list(bytes_there)
            self.assertEqual(got, "damaged" if numbers is None else listed(numbers))

    def test_each_changed_byte_of_a_block_is_answered_right(self):
        for xs in (*SHORT, TO_128, made.apart(TOP, 1, 128)):
            self.agree(plain.list_of(xs))

    def test_each_changed_byte_of_a_metablock_is_answered_right(self):
        for count in (2048, 2049):
            self.agree(plain.list_of(made.apart(1, 1, count)))


def walk(passes, at, length, *steps):
    """The line of a walk."""
    return " ".join([f"walk {passes} {at} {length}", *steps])


def walks(source, lines):
    """What walks over a source are told, each as its steps, and how many blocks were decoded, how
    often the source was asked and how often it failed."""
    count = max(1, -(-len(lines) // 4))
    groups = [[f"source {hexed(source)}", *lines[at:at + count]]
              for at in range(0, len(lines), count)]
    for group in each_answered(groups):
        for told in group[1:]:
            words = told.split(" ")
            yield words[:-3], *map(int, words[-3:])


class Cursors(unittest.TestCase):
    """Lists taken out in each way."""

    def test_the_row_is_walked(self):
        """A seek decodes the block that it goes to, and none goes back."""
        data = plain.list_of(made.apart(1, 1, 2048))
        walked = ("seek:1500", "next", "seek:2", "seek:2049", "next")
        for n, stands in enumerate(("1", "1500", "1501", "1501", "-", "-")):
            told, decoded, _, failed = next(walks(data, [walk(NEVER, 0, len(data), *walked[:n])]))
            self.assertEqual((told[-1], decoded, failed), (stands, 1 if n == 0 else 2, 0))

    def is_taken_out(self, numbers):
        """Of a list seven bytes behind the source's start: one by one, all that is held at a time,
        and by a seek of each; each block is decoded once."""
        data = plain.list_of(numbers)
        ways = (["next"] * len(numbers), ["rest", "pass"] * (len(numbers) // 128 + 2),
                [f"seek:{number}" for number in numbers])
        one, rests, sought = walks(bytes([9] * 7) + data + bytes([9] * 3),
                                   [walk(NEVER, 7, len(data), *way) for way in ways])
        words = [str(number) for number in numbers]
        self.assertEqual(one, ([*words, "-"], len(numbers) // 128, one[2], 0))
        held = [number for word in rests[0][1::2] for number in numbers_in(word)]
        self.assertEqual((held, rests[0][-1]), (numbers, "-"))
        self.assertEqual(sought[0][1:], words)

    def test_lists_are_taken_out(self):
        for count in LENGTHS:
            with self.subTest(count=count):
                self.is_taken_out(made.apart(1, 1, count))
                self.is_taken_out(made.uneven(100_000, count))

    def test_numbers_are_found(self):
        """From the start, by the place just before each, and then by itself."""
        for count in LENGTHS:
            numbers = made.uneven(50, count)
            data = plain.list_of(numbers)
            found = walks(data, [walk(NEVER, 0, len(data), f"seek:{number - 1}", f"seek:{number}")
                                 for number in numbers])
            for before, number, (told, _, _, _) in zip([0, *numbers], numbers, found):
                first = before if before == number - 1 > 0 else number
                self.assertEqual(told[1:], [str(first), str(number)])

    def test_a_seek_asks_little(self):
        """Of 1,024 blocks: it decodes the block that it goes to, and asks twice for each binary
        digit of the blocks that it passes."""
        data = plain.list_of(made.apart(1, 1, 131_072))
        passed = (0, 1, 2, 3, 4, 100, 1000)
        told = walks(data, [walk(NEVER, 0, len(data), f"seek:{128 * n + 1}") for n in passed])
        for n, (stands, decoded, asked, _) in zip(passed, told):
            self.assertEqual(stands[-1], str(128 * n + 1))
            self.assertLessEqual(decoded, 2)
            self.assertLessEqual(asked, 2 * n.bit_length() + 8)

    def keeps(self, told, steps, fault=None):
        """A walk whose last steps are AFTER: once it met a fault, that one if it is named, it
        answers it, and shows no number."""
        stands = [answer for answer, step in zip(told, ("open", *steps)) if step != "rest"]
        met = [answer for answer in stands if answer in ("damaged", "disk", "otherwise")]
        self.assertLessEqual({*met}, {fault or "damaged"})
        self.assertEqual(stands[len(stands) - len(met):], met)
        self.assertGreaterEqual(len(met), len(AFTER) if fault else 0)
        held = [answer for answer, step in zip(told, ("open", *steps)) if step == "rest"]
        self.assertLessEqual({*held[-1:]} if len(met) > len(AFTER) + 1 else set(), {"-"})

    def test_every_prefix_is_damaged(self):
        """By the end of a walk, which keeps its fault; and at a place that goes on past the source
        from the start, and nothing is asked."""
        for n in range(len(LIST)):
            steps = [*["next"] * 300, *AFTER]
            short, past = walks(LIST[:n], [walk(NEVER, 0, n, *steps),
                                           walk(NEVER, 0, len(LIST), *AFTER)])
            self.keeps(short[0], steps, "damaged")
            self.assertEqual(past, (["damaged"] * (len(AFTER) + 1), 0, 0, 0))

    def test_over_changed_bytes_each_call_returns(self):
        """Also over a segment and a dictionary, at the places of lists and at others."""
        for data, places in ((LIST, [(0, len(LIST))]), (SEGMENT, SEGMENT_PLACES),
                             (DICTIONARY, DICTIONARY_PLACES)):
            ways = (["seek:200", *AFTER], ["rest", "pass"] * 6 + AFTER)
            for place in places:
                for steps in ways:
                    asked = [line for damaged in made.damages(data)
                             for line in (f"source {hexed(damaged)}", walk(NEVER, *place, *steps))]
                    for told in each_answered([asked])[0][1::2]:
                        self.keeps(told.split(" ")[:-3], steps)

    def test_each_failed_read_is_kept(self):
        """Each call of the source fails in its turn, and it is not asked again."""
        steps = [*["next"] * 300, *AFTER]
        _, _, asked, _ = next(walks(LIST, [walk(NEVER, 0, len(LIST), *["next"] * 300)]))
        for passes, told in enumerate(walks(LIST, [
                walk(passes, 0, len(LIST), *steps) for passes in range(asked)])):
            self.keeps(told[0], steps, "disk")
            self.assertEqual(told[2:], (passes + 1, 1))


class Blocks(unittest.TestCase):
    """Kept blocks of two lists of sixteen, whose numbers are 1 and 2 apart."""

    def answered(self, room, *steps):
        """What a cache of some room answers, each step with the numbers that it is to give: a word,
        or the numbers and whether the source was asked."""
        told = iter(each_answered([[
            f"source {hexed(plain.list_of(made.apart(1, 1, 2048)))}",
            f"other {hexed(plain.list_of(made.apart(2, 2, 2048)))}",
            " ".join([f"blocks {room}", *steps])]])[0][2].split(" "))
        for step in steps:
            word = next(told)
            if word in ("asked", "kept"):
                gap, block = map(int, step.split(":")[:2])
                self.assertEqual(next(told),
                                 listed(made.apart((128 * block + 1) * gap, gap, 128)), step)
            yield word

    def test_the_rows_are_answered(self):
        """In the last a block of one segment is not answered for another one's."""
        for room, steps, wanted in (
                (1, "1:0 1:0 1:11 1:0", "asked kept asked asked"),
                (2, "1:0 1:0 1:11 1:0", "asked kept asked kept"),
                (65_536, "1:0 1:0 1:11 1:0", "asked kept asked kept"),
                (4, "1:3 2:3 1:3 2:3", "asked asked kept kept")):
            self.assertEqual([*self.answered(room, *steps.split())], wanted.split())

    def test_no_block_past_the_end(self):
        self.assertEqual([*self.answered(1, "1:16", "1:4294967295")], ["damaged", "damaged"])

    def test_a_failed_read_keeps_nothing(self):
        """Each call of the source that a block takes fails in turn, those for the list's shape
        among them. The block is answered at the next call, and kept then."""
        told = [[*self.answered(1, f"1:11:{passes}", "1:11", "1:11")] for passes in range(12)]
        failed = told.index(["asked", "kept", "kept"])
        self.assertGreaterEqual(failed, 3)
        self.assertEqual(told[:failed], [["disk", "asked", "kept"]] * failed)
        self.assertEqual(told[failed:], [["asked", "kept", "kept"]] * (12 - failed))
