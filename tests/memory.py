"""Each row with each request for memory refused in its turn, up to a run that meets no refusal.

    python3 -m tests.memory [--quick]

A row is played on the player below a `malloc` that refuses the Nth request, for every N, by a
store that keeps no decoded block and by one that keeps one. Each line is to be answered as it is
written. One that is refused memory is asked again, and then is. Where the disk's own record was
refused it, a call of the disk fails: then the store is opened again, and has the documents that it
had committed before that line, or those that the line commits. The player may also end for want of
memory of its own. A creation that was refused memory has changed no byte of its disk.

A line that is asked again makes other calls, and so does a cache that was refused memory. So where
a row counts its calls, these are to be as they are written up to more reads, unless a line was asked
again since the opening; below a page cache up to fewer, too, since one without memory for what it
missed keeps each page at once. Where a row has a failing call, this may come in another line behind the
opening; then there is left what there was before that line or behind it. An opening that is asked
again has no failing call any more; below a page cache that reads less the call may never come.

Of a row that is too long, as LINES and BYTES say, each loop has FEW rounds, or TWO: what is answered
then is what the player answers with no request refused. A row that is played below page caches alone is
played so here.

The rows of the lower layers are played so over their program, but for those in which a call is to
fail. A line that is refused memory is answered so, and then as it is written. Where a disk's record
was refused it, a call of the disk fails; what is in force then is what was before.

Each row is told with how many requests were refused: of the store, where a line was asked again; of
the player; of the disk's record, or with a failing call in another line; and of what can do without,
as a cache of blocks. The last line is `N passed, M failed`, in runs.
"""

import os
import pathlib
import re
import subprocess
import sys
import tempfile
from collections import Counter
from concurrent.futures import ProcessPoolExecutor

from . import scripts
from .layers import lines

sys.path.insert(0, str(pathlib.Path(__file__).resolve().parent.parent / "tools"))
import preload  # noqa: E402  pylint: disable=wrong-import-position
import refusals  # noqa: E402  pylint: disable=wrong-import-position

SETTINGS = ("!blocks 0", "!blocks 1")

# A row of more lines is too long, and of its loops there are FEW rounds; of one of more bytes there
# are TWO. With `--quick` rows of more than QUICK lines are left out.
LINES, BYTES, FEW, TWO, QUICK = 400, 8_000_000, 16, 2, 80

# The row whose find keeps a block. Where the cache is refused memory for it, the reply is left: by
# a store that keeps one, more requests go without a word.
CACHED = "a list of 200 documents"

# What is asked in the end, and behind `count` each document. Where a call of the first opening
# fails, the disk that is handed back is opened by the second. Behind a growth the disk may be longer
# than its store.
LEFT = ("!close", "!open", "!open", "count", "!check", "find NOT zzz")
GROWN = "!within"

# How a line is answered that is refused memory, and one whose call of the disk fails; and which
# lines make a call that is noted.
REFUSALS = ("memory", "refused memory")
FAULTS = ("disk", "refused disk")
NOTED = ("!set", "!create", "!open", "!grow", "commit", "merge", "tidy")

# The lines from which calls are counted.
OPENINGS = ("!create", "!open")

# A failing call that no script makes.
NEVER = "!fail 1000000"

# The status of a player that had no memory of its own.
STOPPED = 2

# What a disk is that a store is to be made on, and what is asked of it: the bytes before the
# creation, and behind it; and whether there is a store then, or one is made.
CREATION = ("!disk 32768", "!set 20000 A7 00 5B", "!bytes 0 32768", "!create", "!close",
            "!bytes 0 32768", "!create", "!close", "!open", "count")

_NUMBERS = re.compile(r"(?:added|show|delete|found \d+:)((?: \d+)+)")


class Course:
    """A row as it goes where no memory is refused: its lines, and what each is answered."""

    def __init__(self, texts, asked):
        self.lines = [text.partition(" => ")[0] for text in texts]
        self.answers = scripts.answers([texts])[0]
        self.asked = asked
        self.lefts = {}

    def left(self, count):
        """What is left behind so many lines, when it is asked for."""
        if count not in self.lefts:
            told = scripts.answers([self.lines[:count] + self.asked])[0]
            self.lefts[count] = what_is_left(self.asked, told[count:])
        return self.lefts[count]

    def is_as(self, place, answer, again):
        """Whether that may be answered to a line where those lines were asked again."""
        wanted = self.answers[place]
        if self.lines[place] != "!calls" or answer == wanted:
            return answer == wanted
        opened = max(at for at in range(place) if self.lines[at] in OPENINGS)
        return any(opened < at < place for at in again) or \
            (may_read_less(self.lines) or len(answer) >= len(wanted)) and \
            answer.replace("r", "") == wanted.replace("r", "")


class Lines:
    """A row of the lower layers."""

    program, options = lines.LAYERS, []
    faults = {"disk", "not"}  # The words for a call of the disk that failed: `not written`.

    def __init__(self, row):
        self.pairs = [(asked, wanted) for _, asked, wanted in lines.asked_of(row)]
        self.given = "".join(f"{asked}\n" for asked, _ in self.pairs)
        self.wrong = lines.differences(row)

    def is_cut(self, wanted, answer):
        """Whether an answer tells of a call of the disk that was not to fail."""
        return answer != wanted and bool(self.faults & {*answer.split()})

    def kind(self, status, told):
        """Who was refused memory in a run that told this."""
        got = [line for line in told if line != "memory"]
        is_cut = any(self.is_cut(wanted, answer) for (_, wanted), answer in zip(self.pairs, got))
        return "player" if status == STOPPED else "record" if is_cut else \
            "store" if "memory" in told else "none"

    def fault(self, status, told):
        """What is wrong with such a run, if anything."""
        got = [line for line in told if line != "memory"]
        if status not in (0, STOPPED) or len(told) - len(got) > 1 or \
                status == 0 and len(got) != len(self.pairs):
            return f"the program ended with {status}, {len(told)} answers"
        in_force, is_cut = None, False
        for (asked, wanted), answer in zip(self.pairs, got):
            is_cut = is_cut or self.is_cut(wanted, answer)
            if asked == "current":
                wanted = in_force if is_cut else wanted
                in_force = answer
            elif is_cut:
                continue
            if asked.startswith("pages "):  # How much is read below depends on what is kept.
                wanted, answer = wanted.rpartition(" ")[0], answer.rpartition(" ")[0]
            if asked.startswith("blocks "):  # So does what is asked of the source.
                wanted, answer = (told.replace("kept", "asked") for told in (wanted, answer))
            if answer != wanted:
                return f"{asked[:300]}\n  wanted: {wanted[:300]}\n  got:    {answer[:300]}"
        return None


class Play:
    """A row in a setting: what the player is given, and what it is to answer. Of one that is not
    whole the answers are those that the player gives where no memory is refused."""

    program = scripts.PLAYER

    def __init__(self, row, setting, is_whole=True):
        row = row._replace(lines=[line for line in row.lines if line.text != "!fail each"
                                  and not line.text.startswith("holds ")])
        self.options = ["--again"]
        self.texts = [*setting.splitlines(), *row.texts]
        self.courses = {None: Course(self.texts, [])}
        self.lines, answers = self.courses[None].lines, self.courses[None].answers
        numbers = {int(number) for text in (*self.lines, *answers)
                   for found in _NUMBERS.finditer(text) for number in found[1].split()}
        grown = [GROWN] if any(line.startswith("!grow ") for line in self.lines) else []
        self.asked = [*grown, *LEFT, *(f"show {number}" for number in sorted(numbers))]
        self.courses[None].asked = self.asked
        given = scripts.input_of(row, setting)
        self.wrong = scripts.differences([given]) if is_whole else \
            "".join(f"{answer}\n" for answer in answers if answer in REFUSALS)
        self.given = given + "".join(f"!left\n{text}\n" for text in self.asked)
        # Where a failing call is planned, by the place of the opening that it is counted from.
        self.plans = {next(at for at in range(place, len(self.lines)) if self.lines[at] in OPENINGS):
                      place for place, line in enumerate(self.lines)
                      if line.startswith(("!fail ", "!stop "))}

    def course(self, dropped):
        """How it goes where the call that this line plans does not fail."""
        if dropped not in self.courses:
            texts = [*self.texts[:dropped], NEVER, *self.texts[dropped + 1:]]
            self.courses[dropped] = Course(texts, self.asked)
        return self.courses[dropped]

    def may_fail(self, place):
        """Whether a call may fail in a line, where the disk's record was refused memory, or a
        failing call has come to another line."""
        return self.lines[place].split(" ")[0] in NOTED or \
            any(opening <= place for opening in self.plans)

    def kind(self, status, told):
        """Who was refused memory in a run that told this."""
        if status == STOPPED:
            return "player"
        if len(told) < len(self.lines) + len(self.asked):
            return "record"
        return "store" if any(line.startswith("+ ") for line in told) else "none"

    def fault(self, status, told):
        """What is wrong with such a run, if anything."""
        if status not in (0, 1, STOPPED):
            return f"the player ended with {status}"
        got = [line[2:] for line in told]
        body = got if status == STOPPED else got[:-len(self.asked)]
        body = body[:len(self.lines)]
        again = {place for place, _ in enumerate(body) if told[place].startswith("+ ")}
        dropped = [plan for opening, plan in self.plans.items() if opening in again][:1] or [None]
        if may_read_less(self.lines):
            dropped += self.plans.values()
        faults = [self.fault_of(status, got, body, again, self.course(plan)) for plan in dropped]
        return faults[0] if all(faults) else None

    def fault_of(self, status, got, body, again, course):
        """What is wrong with the answers of a run, if anything, beside those of a course."""
        is_cut = bool(body) and body[-1] in FAULTS and body[-1] != course.answers[len(body) - 1] \
            and self.may_fail(len(body) - 1)
        for place, answer in enumerate(body[:len(body) - is_cut]):
            if not course.is_as(place, answer, again):
                asked, wanted = self.lines[place][:300], course.answers[place][:300]
                return f"{asked}\n  wanted: {wanted}\n  got:    {answer[:300]}"
        if status == STOPPED:
            return None
        if not is_cut and len(body) != len(self.lines):
            return f"it ended behind {self.lines[len(body) - 1]}"
        places = (len(body) - 1, len(body)) if is_cut else (len(body),)
        left = what_is_left(self.asked, got[-len(self.asked):])
        return None if left in [course.left(place) for place in places] else \
            f"behind {self.lines[len(body) - 1]} there is something else: {left}"


class Creation:
    """A creation: where it is refused memory no byte of the disk changes, and the disk that is
    handed back is made a store."""

    program = scripts.PLAYER

    def __init__(self, setting):
        self.lines = [setting, *CREATION]
        self.given = "".join(f"{line}\n" for line in ("!script creation", *self.lines))
        self.options = ["--tell"]
        self.wrong = ""
        self.made = scripts.answers([self.lines])[0][6]

    def kind(self, status, told):
        """Who was refused memory in a run that told this."""
        got = {line[2:] for line in told}
        return "player" if status == STOPPED else "record" if got & set(FAULTS) else \
            "store" if got & set(REFUSALS) else "none"

    def fault(self, status, told):
        """What is wrong with such a run, if anything."""
        if status == STOPPED:
            return None
        if status not in (0, 1) or len(told) != len(self.lines):
            return f"the player ended with {status}"
        _, _, put, before, first, closed, behind, again, _, opened, count = (x[2:] for x in told)
        is_right = put in FAULTS or {
            "created": behind == self.made,
            "memory": (closed, behind, again) == ("no store", before, "created"),
            "disk": again in ("created", "already a store"),
        }.get(first, False)
        is_open = opened == "opened" and count in ("count 0 next 1", *REFUSALS)
        if is_right and (is_open or opened in ("memory", "disk")):
            return None
        return f"{first}, {closed}, {again}, {opened}, {count}; the disk: {behind[:3000]}"


def creations():
    """A creation in each setting."""
    for setting in SETTINGS:
        yield setting, Creation(setting)


def may_read_less(lines):
    """Whether a cache stands below that reads less where it has no memory for what it missed."""
    return any(line.startswith("!pages ") for line in lines)


def what_is_left(asked, told):
    """What is told in the end: whether the store was opened, and what it has."""
    first, second, *has = told[asked.index("!open"):]
    return [second if first in FAULTS else first, *has]


def runs_of(play, shim):
    """Plays it with each request refused: who was refused how many, and what is wrong."""
    kinds = Counter()

    def run(environment):
        ran = subprocess.run([play.program, *play.options], input=play.given, text=True,
                             encoding="utf-8", capture_output=True, env=environment, timeout=120,
                             check=False)
        told = ran.stdout.split("\n")[:-1]
        kind = play.kind(ran.returncode, told)
        kinds[kind] += 1
        return kind != "none", play.fault(ran.returncode, told)

    refused, faults = refusals.each(shim, run)
    kinds["none"] -= 1
    return refused, kinds, faults


def bytes_of(row):
    """How many bytes the lines of a row have."""
    return sum(len(scripts.spelled(text)) for text in row.texts)


def is_long(row):
    """Whether a row is too long."""
    return len(row.lines) > LINES or bytes_of(row) > BYTES


def rows(is_quick):
    """The rows that are played, those that take longest first, by file and title."""
    played = [row for file in scripts.files() for row in file.rows
              if not is_quick or len(row.lines) <= QUICK and not is_long(row)]
    for row in sorted(played, key=lambda row: -len(row.lines) - bytes_of(row) // 10_000):
        yield row.file, row.title


def layered(is_quick):
    """The rows of the lower layers that are played: without a failing call."""
    for file in lines.files():
        for row in file.rows:
            if not any(text.startswith(("fail ", "stop ")) for text in row.texts) \
                    and (not is_quick or not is_long(row)):
                yield row.file, row.title


def plays(name, title):
    """A row in each of its settings, with fewer rounds of its loops where it is too long."""
    row = scripts.file(name).row(title)
    if name.startswith("layers/"):
        yield "as it is", Lines(row)
        return
    is_whole = not is_long(row)
    if not is_whole:
        row = scripts.File(name, TWO if bytes_of(row) > BYTES else FEW).row(title)
    for setting in SETTINGS if set(SETTINGS) <= set(row.settings) else row.settings:
        yield setting, Play(row, setting, is_whole)


def played(case):
    """Plays a row in each setting, or a creation: what is told of it, how many runs there were, and
    what is wrong."""
    shim, name, title = case
    told, runs, faults, spared = [], 0, [], []
    for setting, play in plays(name, title) if name else creations():
        if play.wrong:
            faults.append(f"{setting}, nothing refused:\n{play.wrong}")
            continue
        refused, kinds, wrong = runs_of(play, shim)
        who = ", ".join(f"{kind} {kinds[kind]}" for kind in ("store", "player", "record", "none"))
        told.append(f"{refused} ({who})")
        runs += refused + 1
        spared.append(kinds["none"])
        faults += [f"{setting}, request {request} refused: {fault}" for request, fault in wrong]
    if title == CACHED and spared != sorted(set(spared)):
        faults.append("each request that a block takes is told")
    return f"{name or 'memory.py'}: {title}: {'; '.join(told)}", runs, faults


def main():
    """Plays them side by side."""
    is_quick = "--quick" in sys.argv[1:]
    passed = failed = 0
    with tempfile.TemporaryDirectory() as place:
        shim = preload.built("refuse_memory", place)
        cases = [(shim, *row) for row in (*rows(is_quick), ("", "a store is made"),
                                         *layered(is_quick))]
        with ProcessPoolExecutor(len(os.sched_getaffinity(0))) as pool:
            for told, runs, faults in pool.map(played, cases):
                print(told, flush=True)
                for fault in faults[:3]:
                    print(f"  {fault}")
                passed, failed = passed + runs - len(faults), failed + len(faults)
    print(f"{passed} passed, {failed} failed")
    return 1 if failed or not passed else 0


if __name__ == "__main__":
    sys.exit(main())
