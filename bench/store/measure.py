"""Measures a store of the program in a file beside SQLite FTS5 in a file, on the same texts.

    measure.py PROGRAM LINES [RUNS]

LINES has a text a line. In each run the program, FTS5 and a table of SQLite without an index of
words take all of them, one after the other, each 4,096 made lasting at once; they take turns in
going first. What the last run left is then opened and asked.
"""

import collections
import os
import pathlib
import platform
import re
import resource
import shutil
import sqlite3
import statistics
import subprocess
import sys
import tempfile
import time
import unicodedata

from peers import Fts5, Program, Table, size_on_disk

OPENINGS = 101
SHOWS = 1_000
LIMITS = 5
FINDS = {"program": 3, "FTS5": 31}


def processor_seconds(whose):
    usage = resource.getrusage(whose)
    return usage.ru_utime + usage.ru_stime


def fill_program(program, path, texts, units=0):
    """A new store of at least so many units with the texts: seconds, and processor seconds of the
    whole session."""
    pathlib.Path(path).unlink(missing_ok=True)
    Program.create(program, path, max(4_096, 2 * len(texts), units))
    os.sync()
    before = processor_seconds(resource.RUSAGE_CHILDREN)
    session = Program(program, path)
    session.count()
    seconds = session.fill(texts)
    session.close()
    return seconds, processor_seconds(resource.RUSAGE_CHILDREN) - before


def fill_sqlite(kind, path, texts):
    """The same with a table of SQLite."""
    pathlib.Path(path).unlink(missing_ok=True)
    base = kind(path)
    base.create()
    os.sync()
    before = processor_seconds(resource.RUSAGE_SELF)
    seconds = base.fill(texts)
    used = processor_seconds(resource.RUSAGE_SELF) - before
    base.close()
    return seconds, used


def pick_words(texts):
    """A word of about 20 texts and one of about a tenth of them.

    Only words of small letters that both find in the same texts: the program cuts at less than FTS5
    does, which also drops accents.
    """
    ours, theirs = collections.Counter(), collections.Counter()
    for text in texts:
        text = text.lower()
        apart = unicodedata.normalize("NFD", text)
        plain = "".join(letter for letter in apart if not unicodedata.combining(letter))
        ours.update(set(re.findall(r"\w+(?:['’.:·]\w+)*", text)))
        theirs.update(set(re.findall(r"[^\W_]+", plain)))
    same = [w for w in ours if re.fullmatch("[a-z]{4,}", w) and ours[w] == theirs[w]]

    def nearest(wanted):
        return min(same, key=lambda word: (abs(ours[word] - wanted), word))

    return [nearest(20), nearest(len(texts) / 10)]


def timed(times, action):
    """The median seconds of the action, and its last answer."""
    seconds = []
    for _ in range(times):
        start = time.perf_counter()
        answer = action()
        seconds.append(time.perf_counter() - start)
    return statistics.median(seconds), answer


def open_program(program, path):
    """The least seconds from the start of the process to the reply to `count`."""
    seconds = []
    for _ in range(OPENINGS):
        start = time.perf_counter()
        session = Program(program, path)
        session.count()
        seconds.append(time.perf_counter() - start)
        session.close()
    return min(seconds)


def calls_of(program, path, lines, folder):
    """For each reply to the lines its bytes, and the place and length of each read of the store that
    came before it."""
    log = f"{folder}/calls"
    command = ["strace", "-f", "-y", "-e", "trace=pread64,write", "-o", log, program, "run", path]
    subprocess.run(command, input=lines, text=True, check=True, stdout=subprocess.DEVNULL)
    # Reads of the store alone: the system's loader has some of its own.
    of_store = rf"pread64\(\d+<{re.escape(os.path.realpath(path))}>.*, (\d+)\) = (\d+)$"
    replies, reads = [], []
    for call in pathlib.Path(log).read_text(errors="replace").splitlines():
        if read := re.search(of_store, call):
            reads.append((int(read[1]), int(read[2])))
        elif written := re.search(r"write\(1<.*= (\d+)$", call):
            replies.append((int(written[1]), reads))
            reads = []
    return replies


class Limit:
    """A program in C that makes the reads of those calls, and writes as many bytes."""

    def __init__(self, path, calls, folder):
        self.command = [f"{folder}/limit", path, f"{folder}/plan"]
        source = pathlib.Path(__file__).with_name("limit.c")
        subprocess.run(["cc", "-O2", "-o", self.command[0], source], check=True)
        plan = [f"{length} {len(reads)} " + " ".join(f"{at} {n}" for at, n in reads)
                for length, reads in calls]
        pathlib.Path(self.command[2]).write_text("\n".join(plan) + "\n")

    def seconds(self, lines):
        """From its start to its reply to the first line, and from there to the last reply, each line
        asked when the one before was answered."""
        start = time.perf_counter()
        process = subprocess.Popen(self.command, stdin=subprocess.PIPE, stdout=subprocess.PIPE)
        times = [start]
        for line in lines:
            process.stdin.write(line.encode() + b"\n")
            process.stdin.flush()
            if not process.stdout.readline():
                sys.exit("measure: the reads of a session could not be made again")
            times.append(time.perf_counter())
        process.stdin.close()
        process.stdout.close()
        process.wait()
        return times[1] - start, times[-1] - times[1]


def shown_numbers(texts):
    """The numbers of the documents that are shown."""
    return [1 + place * 7_919 % len(texts) for place in range(SHOWS)]


def show_each(side, numbers):
    """Shows the numbers, each asked when the one before was answered."""
    return [side.show(number) for number in numbers]


def show_in_row(side, numbers):
    """Shows the numbers, without waiting for an answer before the next is asked."""
    return side.show_in_row(numbers)


def show_all(side, way, numbers, texts):
    """Seconds to show the numbers in this way."""
    start = time.perf_counter()
    shown = way(side, numbers)
    seconds = time.perf_counter() - start
    if shown != [texts[number - 1] for number in numbers]:
        sys.exit("measure: a text came back changed")
    return seconds


def processor():
    for line in pathlib.Path("/proc/cpuinfo").read_text().splitlines():
        if line.startswith("model name"):
            return line.split(":")[1].strip()
    return platform.processor()


def row(what, figures, form, unit=1.0, peers=2):
    """A line of the table: the figures, and the first by each of the others; the last peers of the
    table may have none."""
    ours, *others = figures
    absent = ["-"] * (peers - len(others))
    told = [f"{figure * unit:{form}}" for figure in figures] + absent
    ratios = [f"{ours / other:.2f}" for other in others] + absent
    print("| " + " | ".join([what, *told, *ratios]) + " |", flush=True)


def report_filling(filled, texts, paths):
    print("| what | program | FTS5 | no index | program to FTS5 | to no index |")
    print("|---|---|---|---|---|---|")
    for what, pick in (("best", min), ("median", statistics.median)):
        seconds = [pick(elapsed for elapsed, _ in results) for results in filled.values()]
        row(f"add and commit, s, {what}", seconds, ".2f")
        row(f"documents a second, {what}", [len(texts) / each for each in seconds], ".0f")
    used = [statistics.median(cpu for _, cpu in results) for results in filled.values()]
    row("processor s, median", used, ".2f")
    row("file, MB", [size_on_disk(path) for path in paths.values()], ".1f", 1e-6)


def show_anew(opening, way, numbers, texts):
    """The same on a side that is opened for it."""
    side = opening()
    seconds = show_all(side, way, numbers, texts)
    side.close()
    return seconds


def report_asking(openings, texts):
    numbers = shown_numbers(texts)
    for how, way in (("one after the other", show_each), ("in a row", show_in_row)):
        shown = [statistics.median(show_anew(each, way, numbers, texts) for _ in range(LIMITS))
                 for each in openings]
        row(f"{SHOWS} shows {how}, s, median of {LIMITS}", shown, ".4f")
    sides = dict(zip(FINDS, (opening() for opening in openings)))
    for name, side in sides.items():
        if side.count() != len(texts):
            sys.exit(f"measure: {name} holds {side.count()} documents")
    for word in pick_words(texts):
        found = {name: timed(FINDS[name], lambda: side.find(word)) for name, side in sides.items()}
        (ours, hits), (theirs, their_hits) = found.values()
        if hits != their_hits:
            sys.exit(f"measure: {word} is in {hits} documents, and for FTS5 in {their_hits}")
        row(f"find {word}, {hits} documents, ms", [ours, theirs], ".3f", 1e3)
    for side in sides.values():
        side.close()


def report_limits(program, path, numbers, folder):
    """What is read by an opening and by shows, and what those reads and replies take alone."""
    lines = ["count"] + [f"show {number}" for number in numbers]
    calls = calls_of(program, path, "\n".join(lines) + "\nquit\n", folder)[:-1]
    if len(calls) != len(lines):
        sys.exit(f"measure: {len(lines)} lines were answered by {len(calls)} writes")
    reads = calls[0][1]
    print(f"read while opening: {sum(n for _, n in reads)} bytes by {len(reads)} calls")
    reads = [read for _, reads in calls[1:] for read in reads]
    print(f"read by {len(numbers)} shows: {sum(n for _, n in reads)} bytes by {len(reads)} calls; "
          f"their replies have {sum(length for length, _ in calls[1:])}")
    opening = Limit(path, calls[:1], folder)
    print(f"an opening's reads and its reply alone, best of {OPENINGS}: "
          f"{min(opening.seconds(lines[:1])[0] for _ in range(OPENINGS)) * 1e3:.2f} ms")
    shows = Limit(path, calls, folder)
    print(f"the shows' reads and replies alone, median of {LIMITS}: "
          f"{statistics.median(shows.seconds(lines)[1] for _ in range(LIMITS)):.4f} s")


def report_opening(program, path, texts, folder):
    empty = f"{folder}/empty"
    Program.create(program, empty, 64)
    print(f"opening and count, best of {OPENINGS}: {open_program(program, path) * 1e3:.2f} ms; "
          f"of a store without documents: {open_program(program, empty) * 1e3:.2f} ms")
    if shutil.which("strace") is None:
        print("limits: left out, there is no strace")
        return
    report_limits(program, path, shown_numbers(texts), folder)


def main():
    program = os.path.abspath(sys.argv[1])
    lines = pathlib.Path(sys.argv[2])
    texts = lines.read_text().split("\n")[:-1]
    runs = int(sys.argv[3]) if len(sys.argv) > 3 else 3
    with tempfile.TemporaryDirectory(dir=lines.parent) as folder:
        places = {"program": "store", "FTS5": "base", "no index": "table"}
        paths = {name: f"{folder}/{place}" for name, place in places.items()}
        ways = {
            "program": lambda path: fill_program(program, path, texts),
            "FTS5": lambda path: fill_sqlite(Fts5, path, texts),
            "no index": lambda path: fill_sqlite(Table, path, texts),
        }
        filled = {name: [] for name in ways}
        names = list(ways)
        for run in range(runs):
            first = run % len(names)
            for name in names[first:] + names[:first]:
                filled[name].append(ways[name](paths[name]))
        size = sum(len(text.encode()) for text in texts)
        print(f"{len(texts)} documents, {size / 1e6:.1f} MB, {runs} runs; {processor()}; "
              f"SQLite {sqlite3.sqlite_version}; {time.strftime('%Y-%m-%d')}")
        print(f"load as they were filled: {os.getloadavg()[0]:.1f} on {os.cpu_count()} processors")
        for name, results in filled.items():
            print(f"seconds of {name}:", *(f"{elapsed:.2f}" for elapsed, _ in results))
        print()
        report_filling(filled, texts, paths)
        openings = [lambda: Program(program, paths["program"]), lambda: Fts5(paths["FTS5"])]
        report_asking(openings, texts)
        print()
        report_opening(program, paths["program"], texts, folder)
        print(f"load as it ended: {os.getloadavg()[0]:.1f}")


if __name__ == "__main__":
    main()
