"""Pages of a disk that are kept: each read gives what the disk below has, also after writes and
after calls that failed; a page is kept at its second miss, and then not read again."""

import unittest

from .lines import each_answered, hexed

# Two whole pages and 1,808 bytes of a third, of which no two neighbouring pages are alike.
SAMPLE = bytes(k * k % 251 for k in range(10_000))
MADE = f"disk {len(SAMPLE)} {hexed(SAMPLE)}"

# Reads around the borders of pages, also those that end the disk.
AROUND = [(at, n) for at in (0, 1, 4000, 4094, 4095, 4096, 4097, 8190, 8191, 8192, 8193, 9990, 9999,
                             10_000)
          for n in (0, 1, 2, 7, 16, 96, 97, 4095, 4096, 4097, 8192, 8193) if at + n <= len(SAMPLE)]

# Calls that make 15 calls below, with two pages; a write of so many bytes with the number after it.
CALLS = (("read", 0, 16),
         ("read", 4090, 16),  # the first page whole, and 10 bytes of the second
         ("read", 4090, 16),  # the second page whole
         ("write", 4090, 8, 252),
         ("read", 4090, 16),  # both pages are read again
         ("sync",), ("read", 9984, 16), ("read", 9984, 16), ("write", 9990, 9, 253),
         ("read", 9984, 16),
         ("read", 8000, 300),  # kept
         ("read", 100, 5000), ("write", 0, 1, 254), ("read", 0, 16),
         ("read", 0, 16))  # kept
CALLS_BELOW = 15


def step(name, at=0, n=0, number=0):
    """A call, as a line has it."""
    what = {"read": str(n), "write": hexed(bytes([number] * n)), "sync": ""}[name]
    return f"{name}:{at}:{what}"


class Pages(unittest.TestCase):
    """Over one disk."""

    def play(self, told, calls):
        """Compares what calls are told with what the disk is to hold; answers that, and how many
        failed. A write that fails has written the first half of its bytes, rounded up."""
        there, failed = bytearray(SAMPLE), 0
        for answer, (name, *rest) in zip(told, calls):
            failed += answer == "disk"
            if name == "write":
                at, n, number = rest
                done = -(-n // 2) if answer == "disk" else n
                there[at:at + done] = bytes([number] * done)
            elif name == "read" and answer != "disk":
                self.assertEqual(answer, hexed(there[rest[0]:sum(rest)]), rest)
        return bytes(there), failed

    def test_reads_give_what_the_disk_below_has(self):
        """Also where there are more pages than are kept, and where none is."""
        reads = [("read", at, n) for at, n in AROUND * 2]
        line = " ".join(step(*read) for read in reads)
        for told in each_answered([[MADE, f"pages {pages} {line}", "bytes 0 10000"]
                                   for pages in (0, 1, 2, 3, 7)]):
            there, failed = self.play(told[1].split(), reads)
            self.assertEqual((failed, told[2]), (0, hexed(there)))

    def test_what_is_kept_is_not_read_again(self):
        """Reads in their order, and how many bytes were read below by then, with two pages."""
        reads = (
            # Bytes of the first page, then the page, then what is in it.
            (0, 16, 16), (100, 16, 4_112), (4_080, 16, 4_112),
            # Over the border: 10 bytes of the next page, then that page.
            (4_090, 16, 4_122), (4_090, 16, 8_218), (0, 4_096, 8_218),
            # The short last page takes the place of the first, as it is missed a second time.
            (9_984, 16, 8_234), (100, 16, 8_234), (8_192, 1_808, 10_042), (8_000, 300, 10_042),
            # The first page was missed before: it is read whole, and takes its place again.
            (100, 16, 14_138), (5_000, 16, 14_138),
            # Longer than a page: as it is, each time. An empty one reads nothing.
            (1, 5_000, 19_138), (1, 5_000, 24_138), (0, 0, 24_138), (100, 16, 24_138))
        lines = ["pages 2 " + " ".join(step("read", at, n) for at, n, _ in reads[:end])
                 for end in range(1, len(reads) + 1)]
        calls = [("read", at, n) for at, n, _ in reads]
        for end, told in enumerate(each_answered([[MADE, *lines]])[0][1:], 1):
            *answers, below = told.split()
            self.assertEqual((len(answers), int(below)), (end, reads[end - 1][2]))
            self.play(answers, calls)

    def test_a_call_that_fails_is_told(self):
        """The one fault, once, and no stale page is left; and those from a call on."""
        line = "pages 2 " + " ".join(step(*call) for call in CALLS)
        for plan in ("fail", "stop"):
            for k in range(1, CALLS_BELOW + 2):
                told = each_answered([[MADE, f"{plan} {k}", line, "bytes 0 10000"]])[0]
                there, failed = self.play(told[2].split(), CALLS)
                self.assertEqual(told[3], hexed(there))
                if plan == "fail" or k > CALLS_BELOW:
                    self.assertEqual(failed, int(k <= CALLS_BELOW))
                self.assertGreaterEqual(failed, int(k <= CALLS_BELOW))
