"""Measures a check of a store beside SQLite FTS5's integrity-check, Xapian's xapian-check, and a
plain read of the store's bytes.

    check.py PROGRAM LINES [RUNS]

LINES has a text a line; its folder has the peer xapian where it could be built. Each side takes all
texts, each 4,096 made lasting. Then it checks what it has, each time in a new process or on a new
connection, and they take turns in going first. FTS5 reads its texts again and compares its index with
them; xapian-check looks at the shape of its tables and reads no text. At last the program's segments
are merged into one, and that is checked.
"""

import os
import pathlib
import re
import shutil
import sqlite3
import statistics
import subprocess
import sys
import tempfile
import time

from measure import processor, row
from peers import UNIT, Fts5, Program, Xapian, segments


def most_memory(pid):
    """The most memory that a process has had, asked until it ends. What `wait4` tells is no less than
    what this process had as it started the other."""
    most = 0
    while True:
        with open(f"/proc/{pid}/status", encoding="ascii", errors="replace") as status:
            told = re.search(r"VmHWM:\s+(\d+) kB", status.read())
        if told is None:
            return most
        most = 1_024 * int(told[1])
        time.sleep(0.002)


def process(*command):
    """A process: seconds, processor seconds, the most memory that it had, and what it printed."""
    start = time.perf_counter()
    started = subprocess.Popen(command, stdout=subprocess.PIPE)
    memory = most_memory(started.pid)
    _, status, used = os.wait4(started.pid, 0)
    seconds = time.perf_counter() - start
    if status != 0:
        sys.exit(f"check: {command[0]} ended with {status}")
    return seconds, used.ru_utime + used.ru_stime, memory, started.stdout.read()


class Store:
    """The program's side."""

    name = "program"

    def __init__(self, program, folder, texts):
        self.program, self.path, self.count = program, f"{folder}/program", len(texts)
        written = sum(len(text.encode()) + 12 for text in texts)
        Program.create(program, self.path, 4 * written // UNIT + 4_096)
        session = Program(program, self.path)
        session.fill(texts)
        session.close()

    def check(self):
        *used, printed = process(self.program, "check", self.path)
        held = len(segments(self.path))
        if printed != b"ok %d documents next %d segments %d\n" % (self.count, self.count + 1, held):
            sys.exit(f"check: the program printed {printed!r}")
        return used

    def merge(self):
        """Makes one segment of all."""
        session = Program(self.program, self.path)
        session.expect("merge", "merged")
        session.close()


class Read:
    """A plain read of the bytes that the program's segments have, behind its bodies."""

    name = "read"

    def __init__(self, store):
        self.path = store.path
        self.size = 34 * UNIT + sum(segments(store.path))

    def check(self):
        size = f"count={self.size}"
        command = ["dd", f"if={self.path}", "of=/dev/null", "bs=1M", size, "iflag=count_bytes"]
        return process(*command, "status=none")[:3]


class Base:
    """FTS5's side, in this process, whose memory is not told apart."""

    name = "FTS5"

    def __init__(self, folder, texts):
        self.path = f"{folder}/FTS5"
        base = Fts5(self.path)
        base.create()
        base.fill(texts)
        base.close()

    def check(self):
        start, before = time.perf_counter(), time.process_time()
        base = sqlite3.connect(self.path)
        base.execute("INSERT INTO documents(documents) VALUES ('integrity-check')")
        base.close()
        return time.perf_counter() - start, time.process_time() - before, 0


class Database:
    """Xapian's side."""

    name = "Xapian"

    def __init__(self, program, folder, texts):
        self.path = f"{folder}/Xapian"
        Xapian(program, self.path).fill(texts)

    def check(self):
        return process("xapian-check", self.path)[:3]


def report(results, text_bytes):
    names = [side.name for side in results]
    peers = len(names) - 1
    print("| what | " + " | ".join(names + [f"to {name}" for name in names[1:]]) + " |")
    print("|---" * (2 * len(names)) + "|")
    seconds = [[each[0] for each in result] for result in results.values()]
    medians = [statistics.median(each) for each in seconds]
    row("s, median", medians, ".3f", peers=peers)
    row("s, best", [min(each) for each in seconds], ".3f", peers=peers)
    used = [statistics.median(each[1] for each in result) for result in results.values()]
    row("processor s, median", used, ".3f", peers=peers)
    rates = [text_bytes / 1e6 / each for each in used]
    row("MB of texts a processor second", rates, ".1f", peers=peers)
    memory = max(each[2] for each in next(iter(results.values())))
    print(f"\nPeak memory of the program: {memory / 1e6:.1f} MB")


def report_merged(store, text_bytes):
    store.merge()
    size = sum(segments(store.path))
    used = [store.check() for _ in range(3)]
    best = min(each[1] for each in used)
    print(f"Merged into one segment of {size / 1e6:.1f} MB: {best:.3f} processor s, the best of three, "
          f"{text_bytes / 1e6 / best:.1f} MB of texts a processor second; "
          f"peak memory {max(each[2] for each in used) / 1e6:.1f} MB")


def main():
    program = os.path.abspath(sys.argv[1])
    lines = pathlib.Path(sys.argv[2])
    texts = lines.read_text().split("\n")[:-1]
    runs = int(sys.argv[3]) if len(sys.argv) > 3 else 5
    held = sum(len(text.encode()) for text in texts)
    print(f"{len(texts)} documents, {held / 1e6:.1f} MB, {runs} runs; {processor()}; "
          f"SQLite {sqlite3.sqlite_version}; {time.strftime('%Y-%m-%d')}")
    with tempfile.TemporaryDirectory(dir=lines.parent) as folder:
        store = Store(program, folder, texts)
        sides = [store, Read(store), Base(folder, texts)]
        if (lines.parent / "xapian").exists() and shutil.which("xapian-check"):
            sides.append(Database(lines.parent / "xapian", folder, texts))
        results = {side: [] for side in sides}
        for run in range(runs):
            first = run % len(sides)
            for side in sides[first:] + sides[:first]:
                results[side].append(side.check())
        sizes = segments(store.path)
        print(f"\nSegments of the program: {len(sizes)}, of {sum(sizes) / 1e6:.1f} MB; "
              f"load {os.getloadavg()[0]:.1f} on {os.cpu_count()} processors:\n")
        report(results, held)
        report_merged(store, held)


if __name__ == "__main__":
    main()
