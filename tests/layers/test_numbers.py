"""Variable bytes, digits, packed blocks and sets, beside plain readings of their definitions."""

import unittest

from . import made, plain
from .lines import hexed, listed, shares

# Below the first number, and past a border.
SEED = (5, 4_294_967_295, 0, 77)

# 2,147,483,500 and so on, and what is below it.
BY_THREES = made.apart(2_147_483_500, 3, 128)
BELOW = "9,9,9,2147483499"


class VariableBytes(unittest.TestCase):
    """Numbers in groups of seven bits."""

    def test_numbers_about_each_power_come_back(self):
        numbers = [((1 << k) + d - 2) % made.WORD for k in range(32) for d in range(5)]
        spelled = [plain.variable_bytes(number) for number in numbers]
        put = shares([f"put {number}" for number in numbers])
        taken = shares([f"take {hexed(data)}" for data in spelled])
        for number, data, one, other in zip(numbers, spelled, put, taken):
            with self.subTest(number=number):
                self.assertEqual(one, f"{len(data)} {hexed(data.ljust(5, bytes([0xEE])))}")
                self.assertEqual(other, f"{number} {len(data)}")


class Digits(unittest.TestCase):
    """Numbers in decimal, whose leading digits are kept from one to the next."""

    def test_numbers_that_rise_have_their_digits(self):
        """60,000 from each start on; the last go past the greatest and begin at 0 again."""
        starts = (0, 999_000, 9_990_000, 99_990_000, 999_990_000, 4_294_900_000)
        sweeps = [[(start + above) % made.WORD for above in range(60_000)] for start in starts]
        told = shares([f"digits {listed(numbers)}" for numbers in sweeps])
        for numbers, answer in zip(sweeps, told):
            self.assertTrue(answer.split() == [hexed(f" {n}".encode()) for n in numbers], numbers[0])


class Blocks(unittest.TestCase):
    """128 numbers, packed at one width."""

    def goes_there_and_back(self, numbers, bits):
        """They are packed, and read back in each way."""
        data = hexed(plain.packed(numbers, bits))
        summed = listed(plain.sums(SEED, numbers))
        lines = [f"width {listed(numbers)}", f"pack {listed(numbers)}", f"unpack {bits} {data}",
                 f"sums {bits} {listed(SEED)} {data}", f"restore {listed(SEED)} {listed(numbers)}"]
        self.assertEqual(shares(lines), [str(bits), data, listed(numbers), summed, summed])

    def test_each_width_and_back(self):
        for bits in range(33):
            with self.subTest(bits=bits):
                self.goes_there_and_back(made.mixed(bits), bits)

    def test_blocks_by_hand_and_back(self):
        """Those whose bytes are a row."""
        for numbers, bits in (([0] * 128, 0), ([0] * 5 + [1] + [0] * 122, 1),
                              ([1, 2, 3] + [4] * 125, 3)):
            self.goes_there_and_back(numbers, bits)

    def test_ascending_sees_the_seed(self):
        told = shares([f"ascending {seed} {listed(BY_THREES)}" for seed in (
            BELOW, "0,0,0,2147483500", "4294967295,4294967295,4294967295,0")])
        self.assertEqual(told, ["yes", "no", "yes"])

    def test_ascending_sees_each_place(self):
        cases = [(place, number) for place in range(1, 128)
                 for number in (BY_THREES[place - 1], 0)]
        told = shares([f"ascending {BELOW} "
                       f"{listed([*BY_THREES[:place], number, *BY_THREES[place + 1:]])}"
                       for place, number in cases])
        for case, answer in zip(cases, told):
            self.assertEqual(answer, "no", case)


def sets_of(a, b, spare):
    """A line that asks for all operations on two sets, and what it is to answer."""
    both, either, without = (listed(sorted(xs)) for xs in (
        {*a} & {*b}, {*a} | {*b}, {*a} - {*b}))
    return f"sets {spare} {listed(a)} {listed(b)}", f"{both} {both} {both} {either} {without}"


class Sets(unittest.TestCase):
    """Each operation, beside its definition."""

    def is_answered(self, cases):
        """Cases are answered as they say."""
        for (asked, wanted), got in zip(cases, shares([asked for asked, _ in cases])):
            self.assertEqual(got, wanted, asked)

    def test_last_places_of_stretches(self):
        """32 and 9984 are each the last number of a stretch of 32; 10001 is past the end."""
        short, long = [32, 9984, 10_001], made.apart(1, 1, 10_000)
        told = shares([f"sets 0 {listed(short)} {listed(long)}",
                       f"sets 0 {listed(long)} {listed(short)}"])
        for answer in told:
            self.assertEqual(answer.split()[:3], ["32,9984"] * 3)

    def test_a_gallop_finds_each_number(self):
        """Among the even numbers up to 4,000."""
        even = made.apart(2, 2, 2000)
        for answer, start in zip(shares([f"sets 0 {x} {listed(even)}" for x in range(4003)]),
                                 range(4003)):
            is_there = start % 2 == 0 and 0 < start <= 4000
            self.assertEqual(answer.split()[2], str(start) if is_there else "-")

    def test_each_pair_of_lengths(self):
        """Up to 70, of lists that are dense, thin, or one of each."""
        for gaps in ((1, 1), (2, 2), (5, 5), (1, 12), (12, 1), (100_000, 100_000)):
            a, b = made.thinned(1, gaps[0]), made.thinned(4, gaps[1])
            self.is_answered([sets_of(a[:i], b[:j], spare) for i in range(71) for j in range(71)
                              for spare in (0, 7)])


class Deletions(unittest.TestCase):
    """A deletion list to which numbers are added in any order."""

    def test_numbers_in_any_order_come_rising(self):
        """127 and 301 have no divisor in common, so the multiples of 127 less those of 301 are all
        numbers below it."""
        shuffled, rising = [127 * i % 301 for i in range(1, 301)], [*range(1, 301)]
        spelled = hexed(plain.list_of(rising))
        put, read = shares([f"dead {listed(shuffled)}", f"alive {spelled} 1 300 301"])
        self.assertEqual(put, f"{spelled} 300 no")
        self.assertEqual(read, f"{listed(rising)} yes yes no")
