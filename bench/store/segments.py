"""Measures a store of few and of many segments, beside SQLite FTS5 of as many transactions.

    segments.py PROGRAM LINES

LINES has a text a line. For each number of segments both take them in as many commits: the last
ones of one text each, whose times are told, and those before of as many texts as one another. What
was filled is opened, counted and asked for a rare word; then the program tidies, and at last it
merges all that is left, and FTS5 optimizes its index.
"""

import os
import pathlib
import sqlite3
import statistics
import sys
import tempfile
import time

from measure import pick_words, processor
from peers import Fts5, Program, segments

SEGMENTS = 64, 1_024, 4_096
COMMITS = 11
OPENINGS = 31
COUNTS = 101
FINDS = 11
# Finds behind which each segment that is worth it has a filter of its words.
FINDS_BEFORE = 500
TIDIES = 5


def least(times, action):
    """The least seconds of the action, in milliseconds."""
    return min(timed(times, action))


def middle(times, action):
    """The median seconds of the action, in milliseconds."""
    return statistics.median(timed(times, action))


def timed(times, action):
    """The milliseconds of the action, each time."""
    taken = []
    for _ in range(times):
        start = time.perf_counter()
        action()
        taken.append(1e3 * (time.perf_counter() - start))
    return taken


def opened(side):
    """Opens a side, counts, and closes it."""
    session = side()
    session.count()
    session.close()


def again(session, word):
    """The median milliseconds of a find of a word that was asked for often."""
    for _ in range(FINDS_BEFORE):
        session.find(word)
    return middle(FINDS, lambda: session.find(word))


def fill(side, texts, count):
    """Takes texts in so many commits; the median milliseconds of the last ones."""
    commits = count - COMMITS
    batch = (len(texts) - COMMITS) // commits
    side.fill(texts[: batch * commits], batch)
    last = iter(texts[batch * commits :])
    return middle(COMMITS, lambda: side.add(next(last)))


def measured(side, word, commit):
    """The figures of a side that was filled, and how many texts have the word."""
    opening = least(OPENINGS, lambda: opened(side))
    session = side()
    hits = session.find(word)
    figures = {
        "opening and count, best": opening,
        "count": middle(COUNTS, session.count),
        "find of a rare word": middle(FINDS, lambda: session.find(word)),
        f"the same behind {FINDS_BEFORE} finds": again(session, word),
        "add and commit of one": commit,
    }
    return session, figures, hits


def tidied(session, path):
    """The median milliseconds of a tidy, each of which leaves seven segments fewer."""
    before = len(segments(path))
    taken = middle(TIDIES, lambda: session.expect("tidy", "tidied"))
    if len(segments(path)) != before - 7 * TIDIES:
        sys.exit("segments: a tidy merged no eight segments")
    return taken


def told(count, ours, theirs):
    """Prints the lines of the table for so many segments."""
    for what, taken in ours.items():
        other = theirs.get(what)
        peer = "-" if other is None else f"{other:.3f}"
        ratio = "-" if other is None else f"{taken / other:.2f}"
        print(f"| {count} | {what} | {taken:.3f} | {peer} | {ratio} |", flush=True)


def compare(program, texts, word, count, folder):
    """Fills both sides with so many segments and transactions, and tells what they take."""
    store, base = f"{folder}/store", f"{folder}/base"
    Program.create(program, store, 262_144)
    session, table = Program(program, store), Fts5(base)
    table.create()
    commits = fill(session, texts, count), fill(table, texts, count)
    session.close()
    table.close()
    if len(segments(store)) != count:
        sys.exit(f"segments: the store has {len(segments(store))}")
    session, ours, hits = measured(lambda: Program(program, store), word, commits[0])
    table, theirs, their_hits = measured(lambda: Fts5(base), word, commits[1])
    if hits != their_hits:
        sys.exit(f"segments: {word} is in {hits} texts, and for FTS5 in {their_hits}")
    ours["tidy"] = tidied(session, store)
    left = len(segments(store))
    [ours["merge"]] = timed(1, lambda: session.expect("merge", "merged"))
    [theirs["merge"]] = timed(1, table.optimize)
    print(f"{left} segments were left to be merged", file=sys.stderr)
    session.close()
    table.close()
    told(count, ours, theirs)


def main():
    program = os.path.abspath(sys.argv[1])
    lines = pathlib.Path(sys.argv[2])
    texts = lines.read_text().split("\n")[:-1]
    rare, _ = pick_words(texts)
    size = sum(len(text.encode()) for text in texts)
    print(f"{len(texts)} documents, {size / 1e6:.1f} MB; {processor()}; "
          f"SQLite {sqlite3.sqlite_version}; {time.strftime('%Y-%m-%d')}; "
          f"load {os.getloadavg()[0]:.1f} on {os.cpu_count()} processors")
    print()
    print("| segments | what | program, ms | FTS5, ms | program to FTS5 |")
    print("|---|---|---|---|---|")
    for count in SEGMENTS:
        with tempfile.TemporaryDirectory(dir=lines.parent) as folder:
            compare(program, texts, rare, count, folder)
    print(f"load as it ended: {os.getloadavg()[0]:.1f}")


if __name__ == "__main__":
    main()
