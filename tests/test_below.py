"""Each script on a page cache, with each call of the device below it failing once in its turn, from
each of its openings on: each answer is as it is written, up to one that tells of the call. A script
that has a failing call of its own, or counts calls, is left out."""

from . import cases, scripts

# A first number of calls, and how many more are tried where each of them met a line.
STEP = 64

FAULTS = ("disk", "refused disk")


def planned(row, place, k):
    """The script whose `k`th call from a line on fails."""
    lines = row.texts
    plan = [*lines[:place], f"!fail {k}", *lines[place:]]
    return "\n".join([f"!script {row.title}, call {k} from line {place}", "!pages 2", *plan]) + "\n"


def told_by(block):
    """The call that failed, what was asked, wanted and answered in what the player told."""
    head, wanted, got = block
    return head, wanted.partition("wanted: ")[2], got.partition("got:    ")[2]


def first_past(row, place, test):
    """The first call, from an opening on, that no line of the script tells of."""
    first = 1
    while True:
        calls = range(first, first + STEP)
        told = scripts.differences([planned(row, place, k) for k in calls]).splitlines()
        blocks = [told_by(told[at:at + 3]) for at in range(0, len(told), 3)]
        for head, wanted, got in blocks:
            test.assertIn(got, FAULTS, f"\n{head}\n  wanted: {wanted}\n  got:    {got}")
        if len(blocks) < STEP:
            return first + len(blocks)
        first += STEP


def is_played(row):
    """Whether no call of the script fails or is counted, and there is a call to fail."""
    numbered = ("!fail", "!stop", "!calls", "!reads")
    return not any(text.startswith(numbered) for text in row.texts)


def play(test, row):
    """Plays a script with each call failing, from each opening on."""
    for place, text in enumerate(row.texts):
        if text.startswith(("!open =>", "!create =>")):
            past = first_past(row, place, test)
            if text.endswith((" opened", " created")):
                test.assertGreater(past, 1, f"{row.title}: no call fails from line {place} on")


def _test(row):
    def test(self):
        play(self, row)
    return test


cases.make(globals(), _test, "script", is_played)
