#!/usr/bin/env python3
"""What the merge gate costs, crate by crate, in processor seconds.

usage: tools/gate_time.py [--into FILE] [COMMAND ..]      at the top of the repository

Runs the command, `rt ci` without one, and looks four times a second at the processes below it. Each
run of the prover names its crate, and is counted

  edits    in a folder of its own, where a must-fail edit is tried
  tests    of a crate whose tests it proves or builds
  proof    else

with the processes that it waited for. When the command has ended the sums are printed as a table,
and behind it what the table leaves out: the rest of the command's processor time, which is that of
the tests and programs that ran, of `rt` itself, and of the last quarter of a second of each run.
The clock's minutes are of the whole. The command's output goes to standard error. Where it fails, or
is broken off by Ctrl-C, the table is of what was run until then, and the status is 1; where it does
not, a file that --into names has the same lines.

A processor that shares its core with another does less in a second, often half. So a fixed piece of
work is done before the command begins and behind it, the least of some times, and each quarter of a
minute beside it: by what it took there the minutes are told in those of processors that share
nothing, beside the sum, which the budget is of. Where a commit has that file already, the last line
tells what the crates that have not changed since it was committed took of their time there, and so
what all would have taken on the machine of that table: a machine may take twice as long as another.
"""
import collections
import contextlib
import os
import pathlib
import re
import resource
import signal
import statistics
import subprocess
import sys
import time

BUDGET_MINUTES = 140
LOOK_EACH = 0.25
LOOKS_PER_YARDSTICK = 60
YARDSTICKS_AT_REST = 20
TICKS = os.sysconf("SC_CLK_TCK")

# What `table` tells: a row, the day, and the minutes of all.
ROW = re.compile(r"^\| `(\w+)` \| (\d+ \| \d+ \| \d+) \|", re.M)
DAY = re.compile(r"^What .* took on (.*), by ", re.M)
ALL = re.compile(r"^(\S+) processor minutes in ", re.M)


def process(folder):
    """The parent of a process, and its processor seconds with those of what it waited for."""
    told = (folder / "stat").read_text().rpartition(")")[2].split()
    return int(told[1]), sum(map(int, told[11:15])) / TICKS


def crate_of(folder):
    """The crate that a run of the prover is about, and what it does; none of another process."""
    words = (folder / "cmdline").read_bytes().decode(errors="replace").split("\0")
    if "--crate-name" not in words:
        return None
    name = words[words.index("--crate-name") + 1]
    if os.path.basename(os.readlink(folder / "cwd")).startswith("rt-edit-"):
        return name, "edits"
    return name, "tests" if "--test" in words or name.startswith("tests_") else "proof"


def look(top, runs):
    """Takes in the seconds so far of each run of the prover below a process, with those of all
    processes below it."""
    found = {}
    for folder in pathlib.Path("/proc").glob("[0-9]*"):
        try:
            found[int(folder.name)] = (*process(folder), crate_of(folder))
        except (OSError, IndexError):
            pass

    def run_of(number):
        """The first run of the prover that a process belongs to, if it is below the top."""
        first = None
        while number in found and number != top:
            first = number if found[number][2] else first
            number = found[number][0]
        return first if number == top else None

    now = collections.Counter()
    for number, (_, seconds, _) in found.items():
        now[run_of(number)] += seconds
    for number in now.keys() - {None}:
        key = number, found[number][2]
        runs[key] = max(runs.get(key, 0), now[number])


def yardstick():
    """The processor seconds of a fixed piece of work."""
    start = time.process_time()
    number, seen = 1, {}
    for turn in range(300_000):
        number = number * 1_103_515_245 + 12_345 & 0x7FFF_FFFF
        seen[number & 0xFFFF] = turn
    return time.process_time() - start


def at_rest():
    """The least that the piece of work takes of some times."""
    return min(yardstick() for _ in range(YARDSTICKS_AT_REST))


class Yardstick:
    """What the piece of work took, alone and beside a command."""

    def __init__(self):
        self.alone, self.beside, self.looks = at_rest(), [], 0

    def look(self):
        """Measures it beside the command, once in so many looks."""
        if self.looks % LOOKS_PER_YARDSTICK == 0:
            self.beside.append(yardstick())
        self.looks += 1

    def told(self, minutes):
        """The line that tells what processor minutes are of processors that share nothing."""
        alone, beside = self.alone, statistics.mean(self.beside or [self.alone])
        return (f"a fixed piece of work took {alone:.3f} s of a processor alone and {beside:.3f} "
                f"beside it: of processors that share nothing this is "
                f"{minutes * min(1, alone / beside):.1f} minutes")


def end(child):
    """Ends a command, which may take its time; who interrupts again meanwhile ends it again."""
    while child.poll() is None:
        with contextlib.suppress(KeyboardInterrupt):
            child.terminate()
            child.wait()


def watch(command):
    """The processor seconds of each crate's parts, of the whole command, its minutes, its status
    and what the yardstick took."""
    runs, work = {}, Yardstick()
    start = time.monotonic()
    child = subprocess.Popen(command, stdin=subprocess.DEVNULL, stdout=sys.stderr)
    try:
        while child.poll() is None:
            look(child.pid, runs)
            work.look()
            time.sleep(LOOK_EACH)
    except KeyboardInterrupt:
        end(child)
    minutes = (time.monotonic() - start) / 60
    work.alone = min(work.alone, at_rest())
    parts = collections.defaultdict(collections.Counter)
    for (_, (name, part)), seconds in runs.items():
        parts[name][part] += seconds
    used = resource.getrusage(resource.RUSAGE_CHILDREN)
    return parts, used.ru_utime + used.ru_stime, minutes, child.returncode, work


def row(name, costs):
    figures = [f"{costs[part]:.0f}" for part in ("proof", "tests", "edits")]
    return f"| {name} | {' | '.join(figures)} | {costs.total() / 60:.1f} |"


def machine():
    """The name of the processors, and the load of the last minutes."""
    told = re.search(r"model name\s*: (.*)", pathlib.Path("/proc/cpuinfo").read_text())
    name = told[1] if told else "a processor without a name"
    return f"{name}, load {', '.join(f'{load:.0f}' for load in os.getloadavg())}"


def table(command, parts, seconds, minutes, work):
    """The lines that tell what a command took."""
    day = time.strftime("%d %B %Y")
    yield f"What `{' '.join(command)}` took on {day}, by tools/gate_time.py: {machine()}"
    yield "\n| crate | proof, s | tests, s | edits, s | together, min |\n|---|---|---|---|---|"
    for name in sorted(parts):
        yield row(f"`{name}`", parts[name])
    together = sum(parts.values(), collections.Counter())
    yield row("all of these", together)
    yield f"\nrunning, and what ended between two looks: {(seconds - together.total()) / 60:.1f} min"
    yield (f"{seconds / 60:.1f} processor minutes in {minutes:.1f} minutes of the clock on "
           f"{os.cpu_count()} processors; the gate may take {BUDGET_MINUTES}")
    yield work.told(seconds / 60)


def changed_since(file):
    """The crates that differ from those of the commit that last changed a file; None where there is
    no such commit."""
    git = subprocess.run(["git", "log", "-1", "--format=%H", "--", file], check=False,
                         capture_output=True, text=True)
    commit = git.stdout.strip()
    if git.returncode or not commit:
        return None
    names = subprocess.run(["git", "diff", "--name-only", commit, "--", "crates"],
                           check=True, capture_output=True, text=True).stdout
    return {name.split("/")[1] for name in names.splitlines()}


def beside(earlier, told, changed):
    """The line that tells what a table comes to on the machine of an earlier one, both as `table`
    tells them; none where no crate has stayed."""
    def seconds(table):
        return {name: sum(map(int, parts.split(" | "))) for name, parts in ROW.findall(table)}

    before, now = seconds(earlier), seconds(told)
    same = (before.keys() & now.keys()) - changed
    of_before = sum(before[name] for name in same)
    if not of_before:
        return ""
    ratio = sum(now[name] for name in same) / of_before
    day, = DAY.findall(earlier)
    then, minutes = (float(*ALL.findall(table)) for table in (earlier, told))
    return (f"the {len(same)} crates that have not changed took {ratio:.2f} of their time of {day}, "
            f"when all took {then}: on that machine this is {minutes / ratio:.1f} minutes\n")


def main(words):
    file, command = None, words
    if words[:1] == ["--into"]:
        file, command = words[1], words[2:]
    command = command or ["rt", "ci"]
    # A shell that runs this behind itself has it ignore the signal.
    signal.signal(signal.SIGINT, signal.default_int_handler)
    parts, seconds, minutes, status, work = watch(command)
    told = "\n".join(table(command, parts, seconds, minutes, work)) + "\n"
    changed = changed_since(file) if file and os.path.exists(file) else None
    if changed is not None:
        told += beside(pathlib.Path(file).read_text(encoding="utf-8"), told, changed)
    print(told, end="")
    if status:
        sys.exit(f"{' '.join(command)} ended with status {status}: the figures are of a part of it")
    if file:
        pathlib.Path(file).write_text(told, encoding="utf-8")


if __name__ == "__main__":
    main(sys.argv[1:])
