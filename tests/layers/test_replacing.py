"""A body put in force with pieces, with a copy that reads between its writes, and with a copy and a
piece behind it: what each leaves where a call of the device fails, and what a crash does then.

Each store has segment 1 at unit 34, of 4,500 bytes. The next one has it with a deletion list and
another segment, both new pieces; or it has it and a copy of it; or both a copy of it and a deletion
list."""

import unittest

from .lines import answers, each_answered, hexed
from .test_bodies import BODY_A, CRASHES, SIZE, body_of, manifest, said

FIRST, LONG = 34, 4_500


def filled(number, count):
    """So many bytes, the first half of them this number and the others the next."""
    return bytes([number] * (count // 2)).ljust(count, bytes([number + 1]))


class Next:
    """The store that follows, with its new segment at a unit: what its body says, the line that
    puts it in force, and the extents that it has with what each is filled with."""

    def __init__(self, way, unit):
        self.way, self.unit = way, unit
        behind = 61 + (unit - 43) // 9
        long = 600 if way == "replace" else LONG
        self.dead = {"replace": unit + 6, "copy": 0, "follow": behind}[way]
        dead = (self.dead, 9) if self.dead else (0, 0)
        self.entries = ((1, FIRST, LONG, 1, *dead), (2, unit, long, 1, 0, 0))
        self.extents = [(FIRST, LONG, FIRST), (unit, long, unit if way == "replace" else FIRST)]
        if self.dead:
            self.extents.append((self.dead, 9, self.dead))

    def says(self, generation):
        """What its body says."""
        return 1, generation, 3, 3, self.entries

    def line(self, half, is_again=False):
        """What puts it in force."""
        copied = f"{512 * FIRST} {512 * self.unit} {LONG}"
        listed = f"{512 * self.dead} {hexed(filled(self.dead, 9))}"
        what = {"replace": f"{512 * self.unit} {hexed(filled(self.unit, 600))} {listed}",
                "copy": copied, "follow": f"{copied} {listed}"}[self.way]
        return f"{self.way} {half} {int(is_again)} {what}"


class Row:
    """A replacement into half B, which is closed, or into half A, which is open: the calls that it
    makes, and which of them are reads: of the gate and, behind a write and a sync that close an open
    gate, of the copy's two parts. The last two are the write and the sync of the gate."""

    def __init__(self, way, is_over_open, calls, reads):
        self.calls, self.reads = calls, reads
        store = (bytes([0xA7]).ljust(BODY_A, b"\0")
                 + body_of(1, 1, 3, 3, ((1, FIRST, LONG, 1, 0, 0),))).ljust(512 * FIRST, b"\0")
        self.lines = [f"disk {SIZE} {hexed(store + filled(FIRST, LONG))}"]
        self.old, self.half, self.next = (1, [(FIRST, LONG, FIRST)]), "B", Next(way, 43)
        if is_over_open:
            self.lines += [manifest(*self.next.says(2)), self.next.line("B"), "crash - 0"]
            self.old, self.half, self.next = (2, self.next.extents), "A", Next(way, 52)
        self.new = (self.old[0] + 1, self.next.extents)
        self.lines.append(manifest(*self.next.says(self.new[0])))

    def told(self, plan, pick, is_again=False):
        """What it answers, and what is in force after a crash with every pick the same, each of
        whose extents is filled: its generation and its extents."""
        looks = [f"bytes {512 * unit} {count}" for _, extents in (self.old, self.new)
                 for unit, count, _ in extents]
        told = answers([*self.lines, plan, self.next.line(self.half, is_again),
                        f"crash {pick:02X} {SIZE}", "current", *looks])
        answer, current = told[-len(looks) - 3], told[-len(looks) - 1]
        _, body = said(current)
        generation, extents = self.old if body[8] == self.old[0] else self.new
        there = dict(zip(looks, told[-len(looks):]))
        are_filled = all(there[f"bytes {512 * unit} {count}"] == hexed(filled(number, count))
                         for unit, count, number in extents)
        units = current.split("extents ")[1].split()
        has = sorted(map(int, units)) == sorted(unit for unit, _, _ in extents)
        return answer, (generation if are_filled and has else current)


# The same with a piece behind the copy has a write that is one call more.
ROWS = [("replace", False, 7, (1,)), ("replace", True, 9, (1,)), ("copy", False, 9, (1, 2, 4)),
        ("copy", True, 11, (1, 4, 6)), ("follow", False, 10, (1, 2, 4)),
        ("follow", True, 12, (1, 4, 6))]


class Replacing(unittest.TestCase):
    """Each call fails, once and from then on."""

    def test_a_cut_replacement_leaves_the_old_store_or_the_new(self):
        """Behind the write of the gate the new one, where the crash leaves it open."""
        for row in (Row(*row) for row in ROWS):
            for pick in CRASHES:
                for plan in ("fail", "stop"):
                    for k in range(1, 14):
                        wanted = "ok" if k > row.calls else "read" if k in row.reads else "write"
                        is_new = k > row.calls or k + 2 > row.calls and pick == 0xA7
                        self.assertEqual(row.told(f"{plan} {k}", pick),
                                         (wanted, (row.new if is_new else row.old)[0]),
                                         (row.next.way, row.half, plan, k, pick))

    def test_after_a_failed_read_it_may_begin_again(self):
        """Also between two writes of the copy, and behind a gate that the first attempt closed."""
        for row in (Row(*row) for row in ROWS):
            for pick in CRASHES:
                for k in row.reads:
                    self.assertEqual(row.told(f"fail {k}", pick, True), ("ok", row.new[0]))

    def test_a_failed_read_of_the_gate_writes_nothing(self):
        """No position is open, and the bytes are as they were."""
        for row in (Row(*row) for row in ROWS):
            whole = f"bytes 0 {SIZE}"
            told = each_answered([[*row.lines, whole, "stop 1", row.next.line(row.half),
                                   f"crash FF {SIZE}", whole]])[0]
            self.assertEqual(told[-3], "read")
            self.assertEqual(told[-1], told[-5])
