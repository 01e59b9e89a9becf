"""Measures a merge beside SQLite FTS5's optimize, Xapian's compact, and a copy of as many bytes.
Xapian stands there twice: with all in one database, and with a database for each 4,096 texts.

    merge.py PROGRAM LINES [RUNS]

LINES has a text a line; its folder has the peers fts5 and, where it could be built, xapian. Each
side takes all texts, each 4,096 made lasting, deletes every tenth document and makes that lasting.
Then it merges what it has, each time anew, in a new process, whose clock runs from its start to its
reply; the sides take turns in going first. Of what the last merge made every tenth document is
deleted again, and that is merged too, one segment with dead documents, or one database.
"""

import os
import pathlib
import shutil
import sqlite3
import statistics
import subprocess
import sys
import tempfile
import time

from measure import pick_words, processor, row
from peers import BATCH, UNIT, Fts5, Program, Xapian, merged, segments

DELETED_EACH = 10
# What is found has to be the same after a merge, whichever words are asked.
PICKED_FROM = 10_000


class Side:
    """What was filled, at `path`, and what a merge makes of it, at `target`."""

    def __init__(self, program, folder):
        self.program = program
        self.path, self.target = f"{folder}/{self.name}", f"{folder}/{self.name}.merged"

    def delete(self, numbers):
        """The seconds of deletions that are made lasting."""
        session = self.open(self.path)
        start = time.perf_counter()
        session.delete(numbers)
        seconds = time.perf_counter() - start
        session.close()
        return seconds

    def answers(self, path, words):
        """How many documents there are, and how many have each word."""
        session = self.open(path)
        told = [session.count()] + [session.find(word) for word in words]
        session.close()
        return told

    def go_on(self):
        """Puts what the merge made in the place of what was filled."""
        if os.path.isdir(self.path):
            shutil.rmtree(self.path)
        os.replace(self.target, self.path)


class Store(Side):
    """The program's side."""

    name = "program"

    def open(self, path):
        return Program(self.program, path)

    def fill(self, texts):
        """A store with the texts, and with room for a merge."""
        written = sum(len(text.encode()) + 12 for text in texts)
        Program.create(self.program, self.path, 3 * written // UNIT + 4_096)
        session = self.open(self.path)
        session.fill(texts)
        session.close()

    def merge(self):
        subprocess.run(["cp", self.path, self.target], check=True)
        return merged(self.program, "run", self.target)

    def made(self):
        return sum(segments(self.target))


class Base(Side):
    """FTS5's side. Its optimize makes its index one and leaves the texts where they are."""

    name = "FTS5"

    def open(self, path):
        return Fts5(path)

    def fill(self, texts):
        base = self.open(self.path)
        base.create()
        base.fill(texts)
        base.close()

    def merge(self):
        subprocess.run(["cp", self.path, self.target], check=True)
        return merged(self.program, "merge", self.target)

    def made(self):
        base = self.open(self.target)
        size = base.index_bytes()
        base.close()
        return size


class Database(Side):
    """Xapian's side. Its compact makes a new database beside the one that it reads."""

    name = "Xapian"

    def open(self, path):
        return Xapian(self.program, path)

    def fill(self, texts):
        self.open(self.path).fill(texts)

    def merge(self):
        shutil.rmtree(self.target, ignore_errors=True)
        return merged(self.program, "merge", self.target, *parts(self.path))

    def made(self):
        return sum(file.stat().st_size for file in pathlib.Path(self.target).iterdir())


def parts(path):
    """The databases in a folder, in their order, or the one that it is."""
    return sorted(str(each) for each in pathlib.Path(path).iterdir() if each.is_dir()) or [path]


class Databases(Database):
    """Xapian's side with a database for each 4,096 documents, as the program has a segment for each.
    Its compact makes one database of them."""

    name = "Xapian by parts"

    def fill(self, texts):
        os.mkdir(self.path)
        for first in range(0, len(texts), BATCH):
            self.open(f"{self.path}/{first:09}").fill(texts[first : first + BATCH])

    def delete(self, numbers):
        start = time.perf_counter()
        for place, path in enumerate(parts(self.path)):
            first = place * BATCH
            held = range(first + 1, first + BATCH + 1)
            self.open(path).delete(number - first for number in numbers if number in held)
        return time.perf_counter() - start

    def answers(self, path, words):
        told = [super(Databases, self).answers(part, words) for part in parts(path)]
        return [sum(each) for each in zip(*told)]


def copy(path, size):
    """Seconds to copy the first bytes of a file and to sync the copy."""
    target = f"{path}.copy"
    os.sync()
    start = time.perf_counter()
    command = ["dd", f"if={path}", f"of={target}", "bs=1M", f"count={size}", "iflag=count_bytes"]
    subprocess.run([*command, "conv=fsync", "status=none"], check=True)
    seconds = time.perf_counter() - start
    os.remove(target)
    return seconds


def measure(sides, words, runs):
    """Seconds and memory of each side's merges, and the seconds of copies of as many bytes as the
    program's segments have."""
    before = [side.answers(side.path, words) for side in sides]
    size = sum(segments(sides[0].path))
    results = {side: [] for side in sides}
    copies = []
    for run in range(runs):
        first = run % len(sides)
        for side in sides[first:] + sides[:first]:
            results[side].append(side.merge())
        copies.append(copy(sides[0].path, size))
    after = [side.answers(side.target, words) for side in sides]
    if before != after or len({count for count, *_ in after}) != 1:
        sys.exit(f"measure: the merge changed what is found, {before} to {after}")
    return results, copies


def report(results, copies, deleting, text_bytes):
    names = [side.name for side in results] + ["copy"]
    peers = len(names) - 1
    print("| what | " + " | ".join(names + [f"to {name}" for name in names[1:]]) + " |")
    print("|---" * (2 * len(names)) + "|")
    seconds = [[each for each, _ in result] for result in results.values()] + [copies]
    medians = [statistics.median(each) for each in seconds]
    row("s, median", medians, ".3f", peers=peers)
    row("s, best", [min(each) for each in seconds], ".3f", peers=peers)
    rates = [text_bytes / 1e6 / each for each in medians]
    row("MB of texts a second, median", rates, ".0f", peers=peers)
    memory = [max(each for _, each in result) for result in results.values()]
    row("peak memory, MB", memory, ".1f", 1e-6, peers=peers)
    made = [side.made() for side in results]
    row("what is made, MB", made, ".1f", 1e-6, peers=peers)
    row("memory to what is made", [m / size for m, size in zip(memory, made)], ".2f", peers=peers)
    row("the deletions before, s", deleting, ".2f", peers=peers)


def main():
    program = os.path.abspath(sys.argv[1])
    lines = pathlib.Path(sys.argv[2])
    texts = lines.read_text().split("\n")[:-1]
    runs = int(sys.argv[3]) if len(sys.argv) > 3 else 5
    words = pick_words(texts[:PICKED_FROM])
    sizes = [len(text.encode()) for text in texts]
    held = sum(sizes)
    print(f"{len(texts)} documents, {held / 1e6:.1f} MB, {runs} runs; {processor()}; "
          f"SQLite {sqlite3.sqlite_version}; {time.strftime('%Y-%m-%d')}")
    with tempfile.TemporaryDirectory(dir=lines.parent) as folder:
        store = Store(program, folder)
        sides = [store, Base(lines.parent / "fts5", folder)]
        if (lines.parent / "xapian").exists():
            sides.append(Database(lines.parent / "xapian", folder))
            sides.append(Databases(lines.parent / "xapian", folder))
        for side in sides:
            side.fill(texts)
        for first in (DELETED_EACH, DELETED_EACH // 2):
            merging = segments(store.path)
            dead = range(first, len(texts) + 1, DELETED_EACH)
            deleting = [side.delete(dead) for side in sides]
            results, copies = measure(sides, words, runs)
            print(f"\nSegments of the program: {len(merging)}, of {sum(merging) / 1e6:.1f} MB; "
                  f"texts: {held / 1e6:.1f} MB; documents that are deleted: {len(dead)}; "
                  f"load {os.getloadavg()[0]:.1f} on {os.cpu_count()} processors:\n")
            report(results, copies, deleting, held)
            held -= sum(sizes[first - 1 :: DELETED_EACH])
            # Of one database there are no parts.
            sides = [side for side in sides if not isinstance(side, Databases)]
            for side in sides:
                side.go_on()


if __name__ == "__main__":
    main()
