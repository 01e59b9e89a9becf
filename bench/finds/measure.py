"""Measures finds in committed documents beside SQLite FTS5, Xapian, Lucene and loops in C.

    measure.py PROGRAM LINES FOLDER

LINES has a text a line; FOLDER has the peers fts5, limit, write and, where they could be built,
xapian and lucene. The texts go into a store of the program, a base of FTS5, a database of Xapian and
an index of Lucene, each 4,096 made lasting at once. Every query is asked over a pipe on all sides,
twice over: one after the other, each when the last is answered, and many in a row, without waiting.
The sides take turns, and of each the best round counts, since other work on the machine may make a
round slower by half or more. First as the stores were filled, then merged, optimized and compacted.
"""

import collections
import functools
import itertools
import os
import pathlib
import platform
import re
import shutil
import statistics
import subprocess
import sys
import threading
import time
import unicodedata

sys.path.insert(0, str(pathlib.Path(__file__).parent.parent / "store"))
from peers import BATCH, Fts5, Program, Xapian, merged, segments  # noqa: E402

# A side that answers: its name, its process, and the line that asks a find of it, or None.
Side = collections.namedtuple("Side", "name peer line")

# A find: its name, the best microseconds by the names of sides, and how many it finds.
Row = collections.namedtuple("Row", "name spent found")

# The peers that may not be there, as peers.sh names them, with what they keep.
OTHERS = {"xapian": "database", "lucene": "index"}

# What writes the bytes of a reply, and nothing else.
ALONE = "its bytes alone"

# The columns of the table that is left for the picture, before the loops.
DRAWN = "program", "FTS5", "Xapian", "Lucene", ALONE

# In how many rounds each side is asked a query.
ROUNDS = 9

# How many seconds a query is asked in a round before it is timed and while it is, and how often at
# least, but for one that takes long: that is asked no longer than LONGEST, three times at least.
WARM = 0.01
TIMED = 0.03
TIMES = 21
LONGEST = 1
FEWEST = 3

# How many seconds the finds in a row take in a round, by the time of one that is waited for, and how
# many they are at most; at least as above.
ROW = 0.06
MOST = 100_000

# How many seconds each find is asked, and how many times in a row at once, of a side that is compiled
# as it runs; and how often all are.
WARM_UP, WARM_ROW, WARM_TIMES = 1, 100, 2

# The bytes that a pipe holds, and how long the reader sleeps between two pieces: it is to find much
# in the pipe, and not to be woken for each reply.
PIPE = 1 << 20
NAP = 0.0005


class Peer:
    """A process that answers a line each."""

    def __init__(self, *command):
        pipe = subprocess.PIPE
        self.process = subprocess.Popen(command, stdin=pipe, stdout=pipe, pipesize=PIPE)

    def ask(self, line):
        self.process.stdin.write(line)
        self.process.stdin.flush()
        return self.process.stdout.readline()

    def ask_row(self, line, count, reply):
        """Asks a line so often without waiting; each answer is to be that reply. The seconds of one
        find, of a process that has answered the line before."""
        lines, pieces, got = line * count, [], 0
        feeder = threading.Thread(target=self.feed, args=(lines,), daemon=True)
        start = time.perf_counter()
        feeder.start()
        while got < count * len(reply):
            piece = os.read(self.process.stdout.fileno(), PIPE)
            end = time.perf_counter()
            if not piece:
                break
            pieces.append(piece)
            got += len(piece)
            time.sleep(NAP)
        feeder.join()
        if b"".join(pieces) != count * reply:
            raise SystemExit(f"measure: {line!r} is answered otherwise in a row")
        return (end - start) / count

    def feed(self, lines):
        self.process.stdin.write(lines)
        self.process.stdin.flush()

    def close(self):
        self.process.stdin.close()
        self.process.wait()


def cut(text):
    """The words of a text, about as the program, FTS5 and Xapian cut them."""
    text = text.lower()
    apart = unicodedata.normalize("NFD", text)
    plain = "".join(letter for letter in apart if not unicodedata.combining(letter))
    return (
        set(re.findall(r"\w+(?:['’.:·]\w+)*", text)),
        set(re.findall(r"[^\W_]+", plain)),
        set(re.findall(r"[a-z0-9\u0080-\U0010ffff]+", text)),
    )


def pick_words(texts):
    """A word of about 20 texts, two of about a tenth of them, and two of about a half: words of
    small letters that all peers find in the same texts."""
    counts = [collections.Counter() for _ in range(3)]
    for text in texts:
        for count, words in zip(counts, cut(text)):
            count.update(words)
    loose = counts[0]
    same = [w for w in loose if re.fullmatch("[a-z]{2,}", w) and len({c[w] for c in counts}) == 1]

    def nearest(wanted, *others):
        able = [word for word in same if word not in others]
        return min(able, key=lambda word: (abs(loose[word] - wanted), word))

    rare = nearest(20)
    tenth = nearest(len(texts) / 10)
    other = nearest(len(texts) / 10, tenth)
    half = nearest(len(texts) / 2)
    most = nearest(len(texts) / 2, half)
    return rare, tenth, other, half, most


def classes(rare, tenth, other, half, most):
    """Name, the program's query, FTS5's, and words with their joins behind them."""
    return [
        ("rare", rare, f'"{rare}"', f"{rare}"),
        ("a tenth", tenth, f'"{tenth}"', f"{tenth}"),
        ("half", half, f'"{half}"', f"{half}"),
        ("two of half, AND", f"{half} AND {most}", f'"{half}" AND "{most}"', f"{half} {most} AND"),
        ("rare AND half", f"{rare} AND {half}", f'"{rare}" AND "{half}"', f"{rare} {half} AND"),
        ("two of half, OR", f"{half} OR {most}", f'"{half}" OR "{most}"', f"{half} {most} OR"),
        ("half AND NOT half", f"{half} AND NOT {most}", f'"{half}" NOT "{most}"', f"{half} {most} NOT"),
        ("NOT half", f"NOT {half}", f'!"{half}"', f"* {half} NOT"),
        (
            "nested",
            f"({tenth} OR {other}) AND {half} AND NOT {most}",
            f'(("{tenth}" OR "{other}") AND "{half}") NOT "{most}"',
            f"{tenth} {other} OR {half} AND {most} NOT",
        ),
    ]


def fill(program, texts, folder):
    """The texts in a store, a base and a database."""
    store, base = f"{folder}/store", f"{folder}/base"
    for path in (store, base):
        pathlib.Path(path).unlink(missing_ok=True)
    Program.create(program, store, max(4_096, 4 * len(texts)))
    session = Program(program, store)
    session.count()
    session.fill(texts)
    session.close()
    fts5 = Fts5(base)
    fts5.create()
    fts5.fill(texts)
    fts5.close()
    fill_others(texts, folder)


def others(folder):
    """Xapian and Lucene, where they are there, each with the path of what it keeps."""
    there = (name for name in OTHERS if os.path.exists(f"{folder}/{name}"))
    return {name: f"{folder}/{OTHERS[name]}" for name in there}


def fill_others(texts, folder, positions=False):
    """The texts in a database of Xapian and an index of Lucene."""
    for name, path in others(folder).items():
        shutil.rmtree(path, ignore_errors=True)
        Xapian(f"{folder}/{name}", path).fill(texts, positions)


def merge(program, folder):
    """The same in one segment, one level and one table."""
    merged(program, "run", f"{folder}/store")
    merged(f"{folder}/fts5", "merge", f"{folder}/base")
    merge_others(folder)


def merge_others(folder):
    """Xapian's tables compacted, in the place of those that were filled, and Lucene's index in one
    segment."""
    for name, path in others(folder).items():
        if name == "lucene":
            merged(f"{folder}/{name}", "merge", path)
            continue
        compact = f"{folder}/compact"
        shutil.rmtree(compact, ignore_errors=True)
        merged(f"{folder}/{name}", "merge", compact, path)
        shutil.rmtree(path)
        os.rename(compact, path)


def bytes_below(path):
    """The bytes of the files in a folder."""
    return sum(file.stat().st_size for file in pathlib.Path(path).iterdir())


def show_sizes(folder):
    """Prints how many bytes the segments have, FTS5's pages, and what the others keep."""
    ours = sum(segments(f"{folder}/store"))
    base = Fts5(f"{folder}/base")
    theirs = base.used_bytes()
    base.close()
    told = [f"Segments: {ours:,} bytes", f"pages of FTS5: {theirs:,}, {ours / theirs:.3f}"]
    for name, path in others(folder).items():
        size = bytes_below(path)
        told.append(f"files of {name.title()}: {size:,}, {ours / size:.3f}")
    print(f"\n{'; '.join(told)}")


def timed(peer, line):
    """The median microseconds of an answer."""
    begin = time.perf_counter()
    while time.perf_counter() < begin + WARM:
        peer.ask(line)
    begin = time.perf_counter()
    seconds = []
    while len(seconds) < wanted(time.perf_counter() - begin):
        start = time.perf_counter()
        peer.ask(line)
        seconds.append(time.perf_counter() - start)
    return 1e6 * statistics.median(seconds)


def wanted(seconds):
    """How many answers a round wants that has gone on for so long."""
    if seconds < TIMED:
        return MOST
    return TIMES if seconds < LONGEST else FEWEST


def timed_row(peer, line, waited, reply):
    """The microseconds of a find among many in a row, each answered so, where one that is waited
    for takes so many."""
    fewest = min(max(int(1e6 * LONGEST / waited), FEWEST), TIMES)
    count = min(max(int(1e6 * ROW / waited), fewest), MOST)
    return 1e6 * peer.ask_row(line, count, reply)


def best(measures):
    """What each of these measures in its best round, each going first in turn."""
    least = [float("inf")] * len(measures)
    sides = list(enumerate(measures))
    for number in range(ROUNDS):
        first = number % len(sides)
        for side, measure in sides[first:] + sides[:first]:
            least[side] = min(least[side], measure())
    return least


def open_sides(program, folder):
    """The program and its peers, open, with what they are asked."""
    sides = [
        Side("program", Peer(program, "run", f"{folder}/store"), lambda find: f"find {find[1]}"),
        Side("FTS5", Peer(f"{folder}/fts5", "ask", f"{folder}/base"), lambda find: find[2]),
    ]
    return sides + open_others(folder)


def open_others(folder):
    """Xapian and Lucene, where they are there."""
    return [
        Side(name.title(), Peer(f"{folder}/{name}", "ask", path), lambda find: find[3])
        for name, path in others(folder).items()
    ]


def warm_up(sides, finds):
    """Asks each find of the side that is compiled as it runs, until it is."""
    compiled = [side for side in sides if side.name == "Lucene"]
    for side, find in WARM_TIMES * list(itertools.product(compiled, finds)):
        line = f"{side.line(find)}\n".encode()
        begin, reply = time.perf_counter(), side.peer.ask(line)
        while time.perf_counter() < begin + WARM_UP:
            side.peer.ask_row(line, WARM_ROW, reply)


def answered(sides, find):
    """The sides that take a find with their lines, and the reply, in which all must agree."""
    asked = {side.name: (side.peer, side.line(find)) for side in sides if side.line(find)}
    asked = {name: (peer, f"{line}\n".encode()) for name, (peer, line) in asked.items()}
    replies = {name: peer.ask(line) for name, (peer, line) in asked.items()}
    unlike = [name for name, reply in replies.items() if reply != replies["program"]]
    if unlike:
        raise SystemExit(f"measure: {find[1]!r} is answered otherwise by {', '.join(unlike)}")
    return asked, replies["program"]


def ask_all(sides, finds, folder):
    """For each find its rows, waited for and in a row: the times of each side that takes it, and of
    the bytes of its reply alone."""
    warm_up(sides, finds)
    waited, in_a_row = [], []
    for find in finds:
        asked, reply = answered(sides, find)
        pathlib.Path(f"{folder}/reply").write_bytes(reply)
        asked[ALONE] = Peer(f"{folder}/write", f"{folder}/reply"), b"\n"
        found = len(reply.split(b":")[1].split())
        spent = best([functools.partial(timed, *ask) for ask in asked.values()])
        waited.append(Row(find[0], dict(zip(asked, spent)), found))
        row = [
            functools.partial(timed_row, *ask, each, reply)
            for ask, each in zip(asked.values(), spent)
        ]
        in_a_row.append(Row(find[0], dict(zip(asked, best(row))), found))
        asked[ALONE][0].close()
    for side in sides:
        side.peer.close()
    return waited, in_a_row


def limits(texts, finds, folder):
    """The least microseconds of each class by loops in C over the lists."""
    with open(f"{folder}/lists", "w", encoding="ascii") as file:
        for name, _, _, joined in finds:
            words = [word for word in dict.fromkeys(joined.split()) if word not in ("AND", "OR", "NOT", "*")]
            lists = [[n for n, has in enumerate(texts, 1) if word in has] for word in words]
            places = {word: str(place) for place, word in enumerate(words)}
            expression = " ".join(places.get(token, token) for token in joined.split())
            lists.append(range(1, len(texts) + 1))
            file.write(f"{name}\t{expression}\t{len(lists)}\n")
            for numbers in lists:
                file.write(f"{len(numbers)} {' '.join(map(str, numbers))}\n")
    lines = subprocess.run([f"{folder}/limit", f"{folder}/lists"], check=True, capture_output=True, text=True)
    table = {}
    for line in lines.stdout.splitlines():
        name, spent, found = line.split("\t")
        table[name] = (float(spent), int(found))
    return table


def digits(spent):
    """Microseconds as they are printed."""
    return f"{spent:,.0f}" if spent >= 100 else f"{spent:.1f}"


def show(title, rows, least, folder):
    """Prints a table of finds, and leaves it for the picture."""
    names = [name for name in rows[0].spent if name != ALONE]
    heads = ["find", "found", *(f"{name}, µs" for name in names), "to the best peer"]
    heads += [f"{ALONE}, µs", "to these", "loops in C, µs", "to the loops"]
    print(f"\n{title}\n\n| {' | '.join(heads)} |\n|{len(heads) * '---|'}")
    with open(f"{folder}/table", "w", encoding="utf-8") as table:
        for row in rows:
            loops, found = least[row.name]
            if found != row.found:
                raise SystemExit(f"measure: the loops find {found} of {row.name!r}, not {row.found}")
            ours, *theirs = (row.spent[name] for name in names)
            cells = [row.name, f"{row.found:,}", *(digits(row.spent[name]) for name in names)]
            cells += [f"{ours / min(theirs):.2f}", digits(row.spent[ALONE])]
            cells += [f"{ours / row.spent[ALONE]:.2f}", digits(loops), f"{ours / loops:,.1f}"]
            print(f"| {' | '.join(cells)} |", flush=True)
            drawn = [row.spent.get(name, 0) for name in DRAWN] + [loops]
            table.write("\t".join([row.name, *(f"{it:.1f}" for it in drawn)]) + "\n")


def show_both(stored, asked, least, folder):
    """Prints both tables of finds, waited for and in a row; the second is left for the picture."""
    waited, in_a_row = asked
    show(f"{stored}, one after the other:", waited, least, folder)
    show(f"{stored}, in a row, without waiting:", in_a_row, least, folder)


def show_way(folder, word):
    """Prints how long a line takes that is sent back as it is."""
    echo, line = Peer(f"{folder}/echo"), f"find {word}\n".encode()
    waited = best([functools.partial(timed, echo, line)])
    in_a_row = best([functools.partial(timed_row, echo, line, waited[0], echo.ask(line))])
    echo.close()
    print(f"\nThe way over the pipe and back, alone: {waited[0]:.1f} µs waited for, {in_a_row[0]:.1f} µs in a row")


def main():
    program, lines, folder = sys.argv[1:4]
    texts = pathlib.Path(lines).read_text(encoding="utf-8").splitlines()
    finds = classes(*pick_words(texts))
    fill(program, texts, folder)
    with open("/proc/cpuinfo", encoding="utf-8") as file:
        model = re.search(r"model name\s*: (.*)", file.read())
    size = sum(len(text.encode()) for text in texts) / 1e6
    print(
        f"{len(texts)} documents, {size:.1f} MB; {model.group(1) if model else platform.machine()};"
        f" {time.strftime('%Y-%m-%d')}; load {os.getloadavg()[0]:.1f} on {os.cpu_count()} processors"
    )
    least = limits([cut(text)[0] for text in texts], finds, folder)
    show_sizes(folder)
    stored = f"As they were filled, by {-(-len(texts) // BATCH)} commits"
    show_both(stored, ask_all(open_sides(program, folder), finds, folder), least, folder)
    merge(program, folder)
    show_sizes(folder)
    show_both("Merged into one", ask_all(open_sides(program, folder), finds, folder), least, folder)
    show_way(folder, finds[0][1])


if __name__ == "__main__":
    main()
