"""Measures finds of sessions that read beside one that writes, over the program, FTS5 and Xapian.

    measure.py PROGRAM LOG LINES FOLDER PYTHON

The first LINES lines of LOG go into a store, 4,096 to a commit, by one process, while 0, 1 and 4
others are asked for a rare word and for a frequent one, in turns and without a pause. Each is asked
over a pipe, the program with the tidies of the loaders, and the others by peer.py, which PYTHON
runs: SQLite FTS5 in WAL mode, and Xapian where that Python has it. The first commit is there before
anybody reads. What a reader finds of a word may never get less, and at the end it has to be all.
"""

import collections
import multiprocessing
import os
import pathlib
import re
import shutil
import statistics
import subprocess
import sys
import time

HERE = pathlib.Path(__file__).resolve().parent
sys.path.insert(0, str(HERE.parent / "store"))
from growth import BATCH, batches, rare_word, tidies  # noqa: E402

READERS = 0, 1, 4
FREQUENT = "dhcprequest"

# A side: its name, the command of a session by its role and path, whether it tidies, and whether it
# tells how often a find was begun anew.
Side = collections.namedtuple("Side", "name session tidies tells")

# What came of a load: its seconds, the seconds of each find by its word, and how many finds were
# begun anew, where a side tells that.
Outcome = collections.namedtuple("Outcome", "seconds finds begun")


class Session:
    """A process that answers lines."""

    def __init__(self, command):
        self.process = subprocess.Popen(command, stdin=subprocess.PIPE, stdout=subprocess.PIPE)

    def ask(self, line):
        """The reply to a line."""
        self.process.stdin.write(line + b"\n")
        self.process.stdin.flush()
        return self.process.stdout.readline()

    def commit(self, batch, number):
        """Adds a batch and commits it, with so many tidies behind it."""
        self.process.stdin.write(b"".join(b"add " + line for line in batch) + b"commit\n")
        self.process.stdin.flush()
        told = [self.process.stdout.readline() for _ in range(len(batch) + 1)]
        if told[-1] != b"committed\n":
            raise SystemExit(f"readers: {told[-1]!r} in place of a commit")
        for _ in range(number):
            self.ask(b"tidy")

    def close(self):
        """Ends it."""
        self.process.stdin.close()
        self.process.wait()


class Asker:
    """A session that reads, asked by a process of its own: the seconds of each find, and what the
    last ones found."""

    def __init__(self, side, path, words):
        self.side, self.words = side, words
        self.session = Session(side.session("read", path))
        self.spent, self.found = {word: [] for word in words}, {}

    def ask(self, word):
        """One find."""
        start = time.perf_counter()
        reply = self.session.ask(b"find " + word.encode())
        self.spent[word].append(time.perf_counter() - start)
        count = int(reply.split(b":")[0].removeprefix(b"found "))
        if count < self.found.get(word, 0):
            raise ValueError(f"{word} was found {count} times behind {self.found[word]}")
        self.found[word] = count

    def turn(self):
        """A find of each word."""
        for word in self.words:
            self.ask(word)

    def end(self):
        """Ends it; how often a find was begun anew."""
        begun = int(self.session.ask(b"begun")) if self.side.tells else 0
        self.session.close()
        return begun


def reads(side, path, words, places, end, told):
    """Asks until the end, and tells what came of it."""
    try:
        asker = Asker(side, path, words)
        asker.turn()
        asker.spent = {word: [] for word in words}
        places.wait()
        while not end.is_set():
            asker.turn()
        asker.turn()
        told.put((asker.spent, asker.found, asker.end()))
    except (ValueError, OSError) as why:
        told.put(why)
        places.abort()


def load(side, log, count, path, readers, words):
    """What came of a load beside so many readers."""
    writer = Session(side.session("run", path))
    parts = list(batches(log, count))
    writer.commit(parts[0], 0)
    places, end = multiprocessing.Barrier(readers + 1), multiprocessing.Event()
    told = multiprocessing.Queue()
    for _ in range(readers):
        multiprocessing.Process(target=reads, args=(side, path, words, places, end, told),
                                daemon=True).start()
    places.wait()
    start = time.perf_counter()
    for number, batch in enumerate(parts[1:], 2):
        writer.commit(batch, tidies(number) if side.tidies else 0)
    seconds = time.perf_counter() - start
    end.set()
    came = [told.get() for _ in range(readers)]
    writer.close()
    wrong = [one for one in came if isinstance(one, Exception) or one[1] != words]
    if wrong:
        raise SystemExit(f"readers: of {side.name} {wrong[0]}")
    finds = {word: [each for spent, _, _ in came for each in spent[word]] for word in words}
    return Outcome(seconds, finds, sum(begun for _, _, begun in came))


def wanted(log, count, word):
    """How many of the lines have a word, which may be a part of others: by UAX #29 a point, a comma,
    a colon or an apostrophe within keeps digits or letters together."""
    alone = re.compile(rb"(?<![\w])(?<![\w][.,:'])%b(?![.,:']?\w)" % word.encode())
    return sum(bool(alone.search(line.lower())) for batch in batches(log, count) for line in batch)


def sides(program, python):
    """The program and its peers."""
    def of_program(role, path):
        if role == "run":
            pathlib.Path(path).unlink(missing_ok=True)
            subprocess.run([program, "create", path, "--units", "4194304"], check=True,
                           stdout=subprocess.DEVNULL)
        return [program, role, path]

    def of_peer(kind):
        return lambda role, path: [python, str(HERE / "peer.py"), kind, role, path]
    yield Side("program", of_program, True, False)
    yield Side("FTS5", of_peer("fts5"), False, False)
    if subprocess.run([python, "-c", "import xapian"], capture_output=True, check=False).returncode:
        print(f"readers: {python} has no xapian, so it is passed over", file=sys.stderr)
    else:
        yield Side("Xapian", of_peer("xapian"), False, True)


def milliseconds(seconds):
    """The median and the worst, in milliseconds."""
    return [f"{1_000 * statistics.median(seconds):.3f}", f"{1_000 * max(seconds):.1f}"]


def main():
    program, log, count, folder, python = sys.argv[1:]
    program, count = os.path.abspath(program), int(count)
    if count <= 2 * BATCH:
        raise SystemExit(f"readers: more than {2 * BATCH} lines are wanted")
    rare = rare_word(log, count)
    words = {word: wanted(log, count, word) for word in (rare, FREQUENT)}
    print(f"{count:,} lines; {rare} in {words[rare]}, {FREQUENT} in {words[FREQUENT]:,}; "
          f"load {os.getloadavg()[0]:.1f}\n")
    heads = ["side", "readers", "load, s", "to none", "finds a second", "rare, ms: median", "worst",
             "frequent, ms: median", "worst", "begun anew"]
    print(f"| {' | '.join(heads)} |\n|{len(heads) * '---|'}")
    place = pathlib.Path(folder) / "readers"
    for side in sides(program, python):
        alone = None
        for readers in READERS:
            shutil.rmtree(place, ignore_errors=True)
            place.mkdir(parents=True)
            came = load(side, log, count, str(place / "store"), readers, words)
            alone = alone or came.seconds
            cells = [side.name, str(readers), f"{came.seconds:.2f}", f"{came.seconds / alone:.2f}"]
            if readers:
                asked = sum(map(len, came.finds.values()))
                cells += [f"{asked / came.seconds:,.0f}", *milliseconds(came.finds[rare]),
                          *milliseconds(came.finds[FREQUENT]),
                          str(came.begun) if side.tells else ""]
            else:
                cells += 6 * [""]
            print(f"| {' | '.join(cells)} |", flush=True)
    shutil.rmtree(place)


if __name__ == "__main__":
    main()
