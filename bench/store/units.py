#!/usr/bin/env python3
"""Measures giving stores more units, beside a copy of their files.

    bench/store/units.py PROGRAM [DOCUMENTS ..]

For each number of documents, 1 and 100,000 by default, lines of at most 300 bytes go into a new
store, with a commit behind each 4,096. Then `grow` gives it 65,536 units more, in a new process each
time, of which the median is told and what the process read, wrote and synced. Beside it is the least
that carrying the documents over would take: a copy of the file, synced. All files lie in
bench/store/data, and are removed at the end.
"""

import os
import pathlib
import shutil
import statistics
import subprocess
import sys
import time

from make_lines import drawn, lines_of
from peers import BATCH

TOOLS = pathlib.Path(__file__).resolve().parent.parent.parent / "tools"
sys.path.insert(0, str(TOOLS))
import preload  # noqa: E402

LONGEST = 300
MORE = 65_536
RUNS = 31
COPIES = 5


def run(program, *words, lines=b"", environment=None):
    """A run of the program, which has to succeed."""
    subprocess.run([program, *words], input=lines, stdout=subprocess.DEVNULL, env=environment,
                   check=True)


def units_for(count):
    """As many units as a store of so many documents wants."""
    return 256 + 5 * count // 4


def fill(program, store, count):
    """Makes a store of so many documents."""
    run(program, "create", store, "--units", str(units_for(count)))
    texts = (" ".join(drawn(2 * LONGEST * min(count, BATCH)).split()) + " ").encode()
    asked = []
    for number, line in enumerate(lines_of(texts, count, LONGEST), 1):
        asked.append(b"add " + line + b"\n")
        if number % BATCH == 0 or number == count:
            asked.append(b"commit\n")
    run(program, "run", store, lines=b"".join(asked))


def timed(action):
    """How many milliseconds it takes."""
    start = time.perf_counter()
    action()
    return 1_000 * (time.perf_counter() - start)


def growths(program, store, units):
    """The milliseconds of a growth from so many units on: the median."""
    return statistics.median(
        timed(lambda more=number * MORE: run(program, "grow", store, "--units", str(units + more)))
        for number in range(1, RUNS + 1))


def copied(store):
    """A copy of the file, synced."""
    with open(store, "rb") as source, open(store + ".copy", "wb") as copy:
        shutil.copyfileobj(source, copy, 1 << 20)
        copy.flush()
        os.fsync(copy.fileno())


def calls_of(program, store, units, place):
    """The bytes that a growth to so many units reads and writes, and its syncs."""
    notes = place / "notes"
    environment = {"LD_PRELOAD": preload.built("note_calls", place), "NOTE_CALLS": str(notes)}
    run(program, "grow", store, "--units", str(units), environment=environment)
    calls = [line.split() for line in notes.read_text().splitlines()]
    moved = {name: sum(int(call[3]) for call in calls if call[0] == name)
             for name in ("read", "write")}
    return moved["read"], moved["write"], sum(call[0].startswith("sync") for call in calls)


def main():
    program, counts = os.path.abspath(sys.argv[1]), [int(word) for word in sys.argv[2:]]
    place = pathlib.Path(__file__).resolve().parent / "data" / "units"
    print("| documents | growth, ms | read, bytes | written, bytes | syncs | copy, ms |")
    print("|---|---|---|---|---|---|")
    for count in counts or [1, 100_000]:
        place.mkdir(parents=True)
        try:
            store = str(place / "store")
            fill(program, store, count)
            copy = statistics.median(timed(lambda: copied(store)) for _ in range(COPIES))
            growth = growths(program, store, units_for(count))
            most = units_for(count) + (RUNS + 1) * MORE
            read, written, syncs = calls_of(program, store, most, place)
            print(f"| {count:,} | {growth:.2f} | {read:,} | {written:,} | {syncs} | {copy:.1f} |")
        finally:
            shutil.rmtree(place)


if __name__ == "__main__":
    main()
