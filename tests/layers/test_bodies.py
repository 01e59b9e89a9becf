"""Bodies: what reading answers on damaged ones, and installations, creations and replacements of
which each call fails, and then a crash."""

import struct
import unittest

from .lines import answers, each_answered, hexed

SIZE, BODY, BODY_A, BODY_B = 32_768, 8192, 1024, 9216
CRASHES = (0xA7, 0x00, 0xFF)
MOST = (1 << 64) - 1

# Three entries: id, unit, bytes, kind, and unit and bytes of a deletion list.
ENTRIES = ((3, 40, 600, 2, 34, 5), (5, 35, 512, 1, 0, 0), (4, 63, 1, 1, 42, 513))


def units(count):
    """How many units so many bytes take."""
    return -(-count // 512)


def entries_of(entries):
    """The bytes of entries, 40 each."""
    return b"".join(
        struct.pack("<QIIIIIIII", number, first, units(size), size, kind, dead, units(long), long, 0)
        for number, first, size, kind, dead, long in entries)


def body_of(version, generation, number, segment, entries, table=(0, 0)):
    """The bytes of a body, as docs/FORMATS.md has them."""
    front = b"PKSRCH0" + str(version).encode() + struct.pack("<QIIQI", generation, 64, number,
                                                             segment, len(entries))
    behind = entries_of(entries) if version == 1 else \
        struct.pack("<III", table[0], units(table[1]), table[1])
    return (front + behind).ljust(BODY, b"\0")


def manifest(version, generation, number, segment, entries, table=(0, 0)):
    """The line that spells it."""
    parts = [f"{i}:{first}:{size}:{kind}" + (f":{dead}:{long}" if long else "")
             for i, first, size, kind, dead, long in entries]
    return " ".join(["manifest", *map(str, (version, generation, 64, number, segment)),
                     f"{table[0]}:{table[1]}", *parts])


def new(generation):
    """What the body of a new store says, of a generation."""
    return 2, generation, 1, 1, ()


def three(generation=258):
    """What one with three entries says, in a table."""
    return 2, generation, 77, 6, ENTRIES, (44, 120)


INSIDE = (1, 258, 77, 6, ENTRIES)


def disk_of(body, other=b"", gates=b"\xA7", filling=0):
    """A disk with gate A open, or both, over a body, and another one or a filling."""
    data = gates.ljust(512, b"\0") if len(gates) == 1 else b"\xA7" + bytes(511) + b"\xA7"
    data = data.ljust(BODY_A, b"\0") + body
    return data + (other or bytes([filling] * BODY)) + bytes(SIZE - BODY_B - BODY)


def made(data):
    """The line that makes a disk."""
    return f"disk {SIZE} {hexed(data.rstrip(bytes(1)))}"


def said(told):
    """What a body says by the answer of `current`, with its half: as `body_of` takes it."""
    words = told.split()
    half, (version, generation, _, number, segment, table, _, size) = words[0], map(int, words[1:9])
    parts = " ".join(words[9:]).split("extents")[0].split("segment")[1:]
    entries = []
    for part in parts:
        numbers = [*map(int, part.split()), 0, 0, 0]
        i, first, _, long, kind, dead, _, dead_long = numbers[:8]
        entries.append((i, first, long, kind, dead, dead_long))
    return half, body_of(version, generation, number, segment, entries, (table, size))


class Bodies(unittest.TestCase):
    """Their bytes, and what is read."""

    def test_bodies_and_tables_have_their_bytes(self):
        for what in (new(1), INSIDE, three()):
            told = answers([made(b"\xA7"), manifest(*what)])[1].split()
            self.assertEqual(told[0], hexed(body_of(*what)))
            self.assertEqual(told[1], hexed(entries_of(what[4])))

    def test_the_last_generation_has_none_after_it(self):
        for generation, wanted in ((1, "2"), (MOST - 1, str(MOST)), (MOST, "numbers used up")):
            self.assertEqual(answers([made(b"\xA7"), manifest(*new(generation)), "next"])[2], wanted)

    def test_the_greater_generation_is_in_force(self):
        """Of two open gates, and at equal ones A."""
        for a, b, half in ((3, 4, "B"), (4, 4, "A"), (5, 4, "A")):
            there = disk_of(body_of(*new(a)), body_of(*new(b)), gates=b"AB")
            told = answers([made(there), "current"])[1].split()
            self.assertEqual((told[0], told[2]), (half, str(max(a, b))))

    def read(self, bodies):
        """What is read of disks with these bodies: Ok only where it is the very spelling."""
        told = each_answered([[line for body in group for line in (made(disk_of(body)), "current")]
                              for group in (bodies[i::4] for i in range(4))])
        for i, group in enumerate(told):
            for body, answer in zip(bodies[i::4], group[1::2]):
                if answer != "damaged":
                    self.assertEqual(said(answer), ("A", body))
        return [told[i % 4][2 * (i // 4) + 1] != "damaged" for i in range(len(bodies))]

    def test_another_byte_is_damage_or_another_number(self):
        """Not told is that of a number that no other place repeats, as the generation, the next
        document number, the next segment id, ids, kinds, places and lengths."""
        body = body_of(*INSIDE)
        cases = [(at, value) for at in range(BODY) for value in (0x00, 0xFF) if body[at] != value]
        read = self.read([body] + [body[:at] + bytes([value]) + body[at + 1:]
                                   for at, value in cases])
        self.assertTrue(read[0])
        for (at, _), is_read in zip(cases, read[1:]):
            is_told = at < 8 or 16 <= at < 20 or 32 <= at < 36 or at >= 156
            self.assertFalse(is_told and is_read, at)

    def test_a_body_cut_off_by_random_bytes_is_damage(self):
        """A spelling whose end, or whose front, is noise; and noise alone."""
        body, state, noise = body_of(*INSIDE), 1, bytearray()
        for _ in range(BODY):
            state = (state * 6_364_136_223_846_793_005 + 1_442_695_040_888_963_407) % (1 << 64)
            noise.append(state >> 40 & 0xFF)
        places = [*range(160), *range(160, BODY, 61)]
        self.assertFalse(any(self.read([body[:n] + noise[n:] for n in places])))
        self.assertEqual(self.read([bytes(noise[:n]) + body[n:] for n in places]),
                         [n == 0 for n in places])

    def test_a_table_without_entries_is_damage(self):
        """Its fields are zeros."""
        body = body_of(*new(1))
        cases = [body] + [body[:at] + bytes([to]) + body[at + 1:]
                          for at, to in ((36, 34), (40, 1), (44, 40))]
        self.assertEqual(self.read(cases), [True, False, False, False])


class Case:
    """What is put in force on a disk: by which lines, by how many calls, how many of them come
    before its gate is written, which are reads, and what `current` tells before and after it."""

    def __init__(self, lines, put, calls, before_gate, old, after, reads=()):
        self.lines, self.put, self.calls, self.before_gate = lines, put, calls, before_gate
        self.old, self.new, self.reads = old, after, reads

    def told(self, plan, pick):
        """What it answers, and what is in force after a crash with every pick the same."""
        return answers([*self.lines, plan, self.put, f"crash {pick:02X} {SIZE}", "current"])[
            -3::2]


def in_force(half, what):
    """What is told of a body in force."""
    return half, body_of(*what)


def installations():
    """On a closed half five calls: the read of its gate, the body, a sync, the gate, a sync. A
    table is written before the body. On an open half its gate is closed and synced first. For a
    first body no gate is read."""
    first = in_force("A", new(1))
    second = in_force("B", new(2))
    for filling in (0x00, 0xFF):
        created = made(disk_of(body_of(*new(1)), filling=filling))
        yield Case([created, manifest(*new(2))], "install B", 5, 3, first, second)
    created = made(disk_of(body_of(*new(1))))
    yield Case([created, manifest(*three(2))], "install B", 6, 4, first, in_force("B", three(2)))
    yield Case([created, manifest(*new(2)), "install B", manifest(*new(3))], "install A", 7, 5,
               second, in_force("A", new(3)))
    yield Case([f"disk {SIZE} -", manifest(*new(1))], "establish", 4, 2, None, first)


class Installing(unittest.TestCase):
    """A body put in force, and what is left of it."""

    def is_left(self, told, wanted):
        """What is in force, or that there is no store."""
        self.assertEqual(told if wanted is None else said(told), wanted or "not a store")

    def test_what_is_cut_off_leaves_the_old_body_or_the_new(self):
        """The old one, but for picks that open its gate once that was written."""
        for case in installations():
            for pick in CRASHES:
                for plan in ("fail", "stop"):
                    for passed in range(case.calls):
                        answer, left = case.told(f"{plan} {passed + 1}", pick)
                        is_new = pick == 0xA7 and passed >= case.before_gate
                        self.assertEqual(answer, "disk")
                        self.is_left(left, case.new if is_new else case.old)
                answer, left = case.told(f"stop {case.calls + 1}", pick)
                self.assertEqual(answer, "ok")
                self.is_left(left, case.new)

    def test_a_failed_read_writes_nothing(self):
        """Of the gate."""
        case = next(installations())
        told = answers([*case.lines, "stop 1", case.put, f"crash FF {SIZE}", f"bytes 0 {SIZE}"])
        self.assertEqual((told[3], told[-1]), ("disk", hexed(disk_of(body_of(*new(1))))))
