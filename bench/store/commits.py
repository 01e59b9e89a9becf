"""Measures what a commit of one document takes two programs, in turns: one of before and one of today.

    commits.py EARLIER PROGRAM LINES FOLDER [SEGMENTS]

LINES has a text a line. Each program fills a new store with as many texts, a commit behind each, as
there are to be SEGMENTS, 3,000 by default. Then they take turns, in each of which one adds and
commits text after text; of each the median and the least of the processor time of a commit are told.
Then, in new processes and in turns, each finds a rare word in what it filled, and merges a copy of
it; of each the best counts.
"""

import itertools
import os
import pathlib
import shutil
import statistics
import sys

from measure import pick_words, processor
from peers import Program, merged
from segments import FINDS, middle

SEGMENTS = 3_000
TURNS = 15
COMMITS = 40
SESSIONS = 9
MERGES = 5
# The units of a store that holds as many lines of at most 300 bytes, each in a segment of its own.
UNITS = 65_536


def filled(program, path, texts):
    """A session over a new store with a segment for each text."""
    pathlib.Path(path).unlink(missing_ok=True)
    Program.create(program, path, UNITS)
    session = Program(program, path)
    session.fill(texts, 1)
    return session


def seconds_of(session):
    """The processor seconds of a session so far."""
    told = pathlib.Path(f"/proc/{session.process.pid}/schedstat").read_text("ascii")
    return int(told.split()[0]) / 1e9


def turn(session, texts):
    """The processor milliseconds of a commit with the addition before it, the mean of a turn."""
    before = seconds_of(session)
    for text in texts:
        if not session.ask(f"add {text}").startswith("added "):
            sys.exit("commits: a text was refused")
        session.expect("commit", "committed")
    return 1e3 * (seconds_of(session) - before) / len(texts)


def find(program, store, word):
    """The median milliseconds of a find of a word in a new session."""
    session = Program(program, store)
    session.count()
    taken = middle(FINDS, lambda: session.find(word))
    session.close()
    return taken


def merge(program, store):
    """The seconds and the bytes of memory of a merge of a copy of a store."""
    copy = f"{store}.merged"
    shutil.copyfile(store, copy)
    return merged(program, "run", copy)


def main(programs, lines, folder, segments=SEGMENTS):
    every = pathlib.Path(lines).read_text("utf-8").splitlines()
    texts = iter(every)
    first = list(itertools.islice(texts, int(segments)))
    stores = [f"{folder}/commits.{side}" for side in range(2)]
    sessions = [filled(*side, first) for side in zip(programs, stores)]
    taken = [[], []]
    for number in range(TURNS):
        new = list(itertools.islice(texts, COMMITS))
        for side in (0, 1) if number % 2 else (1, 0):
            taken[side].append(turn(sessions[side], new))
    print(f"{segments} segments, {TURNS} turns of {COMMITS} commits; {processor()}; "
          f"load {os.getloadavg()[0]:.1f} on {os.cpu_count()} processors\n")
    print("| what | earlier | program | ratio |\n|---|---|---|---|")

    def tell(what, earlier, program):
        print(f"| {what} | {earlier:.3f} | {program:.3f} | {program / earlier:.2f} |")

    tell("processor time of a commit, ms, median", *map(statistics.median, taken))
    tell("the least", *map(min, taken))
    for session in sessions:
        session.close()
    rare, _ = pick_words(every[:int(segments)])
    finds = [[find(*side, rare) for side in zip(programs, stores)] for _ in range(SESSIONS)]
    tell("find of a rare word in a new session, ms", *map(min, zip(*finds)))
    rounds = [[merge(*side) for side in zip(programs, stores)] for _ in range(MERGES)]
    best = [[min(part) for part in zip(*side)] for side in zip(*rounds)]
    tell("merge, ms", *(1e3 * seconds for seconds, _ in best))
    tell("its most memory, MB", *(memory / 1e6 for _, memory in best))


if __name__ == "__main__":
    main(sys.argv[1:3], *sys.argv[3:])
