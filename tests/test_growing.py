"""A growth of which each call of the device fails in its turn, alone and with all later ones, and
what a crash leaves of it: the store with the units that it had or with those that were asked for,
and the same documents in each."""

import unittest

from . import scripts
from .sweeps import CRASHES

# Both gates are open, one over a body with a table: reads, the closing of a gate, a body, a gate.
CALLS = "rrrrr rrrrrr r ws wsws".replace(" ", "")

BEFORE = ["!disk 32768", "!create", "add apple", "add pear", "add apple pear", "commit", "delete 1",
          "commit", "!close", "!within"]

# What is asked of the store behind a crash, before and behind a growth, and what it answers.
HELD = [("!open", "opened"), ("!check", "ok 2 documents next 4 segments 1"), ("count", "count 2 next 4"),
        ("find apple", "found 1: 3"), ("find pear", "found 2: 2 3"), ("show 1", "refused no such document"),
        ("show 2", "text pear"), ("!close", "")]

# The segment of 10,204 hyphens takes 20 units of the 30, and a second one needs the growth.
FITS = [("!open", "opened"), ("add {-*10204}", "added 4"), ("commit", "committed"),
        ("add {-*10204}", "added 5"), ("commit", "committed"), ("!close", "")]


def is_new(number, is_open):
    """Whether the growth is there behind a crash: one of its last two calls failed, which open a
    gate and sync it, and the crash leaves the gate open."""
    return number > len(CALLS) - 2 and is_open


def script_of(plan, number, crash, is_open):
    """The lines of a growth whose call of this number fails, each with its answer, if one is
    wanted."""
    again = "as it was" if is_new(number, is_open) else "grown"
    return [*((line, None) for line in BEFORE), (f"{plan} {number}", None), ("!grow 128", "disk"),
            (crash, ""), *HELD, ("!grow 128", again), *HELD, *FITS]


class Growing(unittest.TestCase):
    """Each call, and each crash behind it."""

    def play(self, cases):
        """Plays scripts, and compares what each line is answered."""
        played = scripts.answers([[line for line, _ in case] for case in cases])
        for case, got in zip(cases, played):
            for (line, wanted), answer in zip(case, got):
                if wanted is not None:
                    self.assertEqual(answer, wanted, f"{line} of {[line for line, _ in case]}")

    def test_each_call_fails(self):
        self.play([script_of(plan, number, crash, is_open) for plan in ("!fail", "!stop")
                   for number in range(1, len(CALLS) + 1) for crash, is_open in CRASHES])

    def test_none_fails(self):
        self.play([[*((line, None) for line in BEFORE), (f"!fail {len(CALLS) + 1}", None),
                    ("!grow 128", "grown"), ("!calls", CALLS), (crash, ""), *HELD,
                    ("!grow 128", "as it was"), *FITS] for crash, _ in CRASHES])

    def test_a_read_that_failed_changes_nothing(self):
        last = CALLS.rindex("r") + 1
        self.play([[*((line, None) for line in BEFORE), (f"!fail {number}", None),
                    ("!grow 128", "disk"), ("!grow 128", "grown"), *HELD, *FITS]
                   for number in range(1, last + 1)])
