"""Measures how a store grows with the documents of a log, beside SQLite FTS5 in a file.

    growth.py PROGRAM LOG FOLDER DOCUMENTS..

For each number of documents, the first lines of LOG go over a pipe into a new store, with a commit
behind each 4,096 and the tidies of the loaders (docs/ADMINISTRATION.md), and into a base of FTS5, without
positions of words, a transaction for each 4,096. Both have a process of their own, whose memory is
told. A new process is then asked for a rare word and for a frequent one, whose numbers must agree.
FOLDER has the peer fts5, and gets the tables `growth.rates`, of the most documents, and
`growth.finds`.
"""

import collections
import itertools
import os
import pathlib
import re
import sqlite3
import statistics
import subprocess
import sys
import threading
import time

from measure import processor
from peers import BATCH, Fts5, Program, segments

# Into how many parts a load is cut for the picture, and for what is told of its start and its end.
PARTS = 20
TOLD = 5

# How many documents the rare word is to be in, and the frequent word: an eighth of the log has it.
RARE = 20
FREQUENT = "dhcprequest"

# How often each word is asked for, behind one find that is not timed.
FINDS = 31

# Of so many segments a tidy makes one.
MERGED = 8

PIPE = 1 << 20

# A load: the seconds since its start at each commit, and the most memory of its process.
Load = collections.namedtuple("Load", "seconds memory")


class Session:
    """A process that answers lines."""

    def __init__(self, *command):
        pipe = subprocess.PIPE
        self.process = subprocess.Popen(command, stdin=pipe, stdout=pipe, pipesize=PIPE)

    def ask(self, line):
        self.process.stdin.write(line)
        self.process.stdin.flush()
        return self.process.stdout.readline()

    def memory(self):
        """The most bytes of memory that the process had until now; 0 where it has ended."""
        status = pathlib.Path(f"/proc/{self.process.pid}/status").read_text()
        told = re.search(r"VmHWM:\s+(\d+) kB", status)
        return 1_024 * int(told[1]) if told else 0

    def load(self, lines, steps, is_last):
        """Sends the lines, to which so many steps are answered, `committed` or `tidied`. Whether they
        are the last that the process waits for: where they are, it commits the rest behind them."""
        feeder = threading.Thread(target=self.feed, args=(lines, is_last), daemon=True)
        seconds, memory, start = [], 0, time.perf_counter()
        feeder.start()
        while steps:
            line = self.process.stdout.readline()
            if line in (b"committed\n", b"tidied\n"):
                memory, steps = max(memory, self.memory()), steps - 1
            elif not line.startswith(b"added "):
                raise SystemExit(f"growth: {line!r} was answered")
            if line == b"committed\n":
                seconds.append(time.perf_counter() - start)
        feeder.join()
        self.close()
        return Load(seconds, memory)

    def feed(self, lines, is_last):
        for piece in lines:
            self.process.stdin.write(piece)
        self.process.stdin.flush()
        if is_last:
            self.process.stdin.close()

    def close(self):
        self.process.stdin.close()
        self.process.wait()


def batches(log, count):
    """The first lines of the log, 4,096 at a time."""
    with open(log, "rb") as file:
        lines = itertools.islice(file, count)
        while batch := list(itertools.islice(lines, BATCH)):
            yield batch


def tidies(number):
    """How many tidies the loaders ask for behind a commit of this number."""
    count = 0
    while number % MERGED == 0 and number >= 2 * MERGED:
        number, count = number // MERGED - 1, count + 1
    return count


def with_commits(log, count):
    """What the program is asked."""
    for number, batch in enumerate(batches(log, count), 1):
        yield b"".join(b"add " + line for line in batch)
        yield b"commit\n" + tidies(number) * b"tidy\n"


def plain(log, count):
    """What FTS5's process is given."""
    return (b"".join(batch) for batch in batches(log, count))


def rare_word(log, count):
    """A number of five digits that about so many of the lines have."""
    counts = collections.Counter()
    for batch in batches(log, count):
        for line in batch:
            counts.update(set(re.findall(rb"\b[1-9]\d{4}\b", line)))
    return min(counts, key=lambda word: (abs(counts[word] - RARE), word)).decode()


def rates(seconds, count, parts):
    """The documents a second in each part of a load, with how many there were at its end."""
    documents = [min(BATCH * number, count) for number in range(len(seconds) + 1)]
    clock = [0.0, *seconds]
    ends = sorted({round(len(seconds) * part / parts) for part in range(parts + 1)})
    return [
        (documents[end], (documents[end] - documents[start]) / (clock[end] - clock[start]))
        for start, end in zip(ends, ends[1:])
    ]


def median(session, line):
    """The median microseconds of a find."""
    session.ask(line)
    seconds = []
    for _ in range(FINDS):
        start = time.perf_counter()
        session.ask(line)
        seconds.append(time.perf_counter() - start)
    return 1e6 * statistics.median(seconds)


def asked(session, lines):
    """The replies of a side to the lines, the microseconds of each, and its memory; ends it."""
    replies = [session.ask(line) for line in lines]
    spent = [median(session, line) for line in lines]
    memory = session.memory()
    session.close()
    return replies, spent, memory


def digits(number):
    """A number as it is printed."""
    return f"{number:,.0f}" if number >= 100 else f"{number:.1f}"


def row(name, count, load, kept, parts, finds):
    """A line of the table."""
    speeds = [speed for _, speed in rates(load.seconds, count, TOLD)]
    spent, memory = finds
    cells = [f"{count:,}", name, f"{load.seconds[-1]:.1f}", digits(speeds[0]), digits(speeds[-1])]
    cells += [f"{speeds[-1] / speeds[0]:.2f}", f"{load.memory / 1e6:.1f}", f"{memory / 1e6:.1f}"]
    cells += [f"{kept / count:.1f}", parts, *map(digits, spent)]
    print(f"| {' | '.join(cells)} |", flush=True)


def grow(program, log, folder, count):
    """Loads and asks both sides; prints their lines, and gives the loads and the times of finds."""
    store, base = f"{folder}/store", f"{folder}/base"
    for path in (store, base):
        pathlib.Path(path).unlink(missing_ok=True)
    size = sum(map(len, itertools.chain.from_iterable(batches(log, count))))
    Program.create(program, store, max(4_096, size // 64))
    word = rare_word(log, count)
    commits = -(-count // BATCH)
    steps = commits + sum(map(tidies, range(1, commits + 1)))
    os.sync()
    ours = Session(program, "run", store).load(with_commits(log, count), steps, False)
    os.sync()
    theirs = Session(f"{folder}/fts5", "fill", base).load(plain(log, count), commits, True)
    words = word, FREQUENT
    lines = [f"find {it}\n".encode() for it in words], [f'"{it}"\n'.encode() for it in words]
    replies, *found = asked(Session(program, "run", store), lines[0])
    others, *other = asked(Session(f"{folder}/fts5", "ask", base), lines[1])
    if replies != others:
        raise SystemExit("growth: the two find other documents")
    table, sizes = Fts5(base), segments(store)
    row("program", count, ours, sum(sizes), f"{len(sizes)}", found)
    row("FTS5", count, theirs, table.used_bytes(), "-", other)
    table.close()
    hits = [len(reply.split(b":")[1].split()) for reply in replies]
    return ours, theirs, [*found[0], *other[0]], hits


def main():
    program, log, folder = os.path.abspath(sys.argv[1]), sys.argv[2], sys.argv[3]
    counts = sorted(map(int, sys.argv[4:]))
    print(
        f"{processor()}; SQLite {sqlite3.sqlite_version}; {time.strftime('%Y-%m-%d')}; "
        f"load {os.getloadavg()[0]:.1f} on {os.cpu_count()} processors\n"
    )
    heads = ["documents", "side", "load, s", "documents a second, first fifth", "last fifth"]
    heads += ["last to first", "memory of the load, MB", "of finds, MB", "bytes a document"]
    heads += ["segments", "rare find, µs", "frequent find, µs"]
    print(f"| {' | '.join(heads)} |\n|{len(heads) * '---|'}", flush=True)
    grown = {count: grow(program, log, folder, count) for count in counts}
    with open(f"{folder}/growth.finds", "w", encoding="ascii") as file:
        for count, (_, _, spent, _) in grown.items():
            file.write("\t".join([str(count), *(f"{it:.1f}" for it in spent)]) + "\n")
    with open(f"{folder}/growth.rates", "w", encoding="ascii") as file:
        ours, theirs, _, _ = grown[counts[-1]]
        sides = (rates(load.seconds, counts[-1], PARTS) for load in (ours, theirs))
        for (documents, mine), (_, its) in zip(*sides):
            file.write(f"{documents}\t{mine:.0f}\t{its:.0f}\n")
    hits = ((count, hits) for count, (*_, hits) in grown.items())
    told = (f"of {count:,} documents {rare:,} and {many:,}" for count, (rare, many) in hits)
    print(f"\nFound: {'; '.join(told)}; load as it ended: {os.getloadavg()[0]:.1f}")


if __name__ == "__main__":
    main()
