"""Measures adding and finding over a pipe, beside SQLite FTS5 in memory, on the same documents.

    measure.py PROGRAM DOCUMENTS [RUNS]

DOCUMENTS has a document a line. Each run starts the program and fills it, asks the queries, and does
the same with SQLite; the medians over the runs are printed. FTS5 is filled in one transaction, once
with its default index, which keeps the positions of words, and once with detail=none, which keeps
only which documents have a word, as a Boolean search needs.
"""

import collections
import os
import pathlib
import platform
import re
import sqlite3
import statistics
import subprocess
import sys
import tempfile
import threading
import time

ASKED = 31


class Engine:
    """The program, asked over a pipe: one line, one reply line."""

    def __init__(self, program):
        # No document is committed, so that the smallest store will do.
        self.folder = tempfile.TemporaryDirectory()
        store = os.path.join(self.folder.name, "store")
        subprocess.run([program, "create", store, "--units", "64"], stdout=subprocess.DEVNULL,
                       check=True)
        self.process = subprocess.Popen([program, "run", store], stdin=subprocess.PIPE,
                                        stdout=subprocess.PIPE)
        self.ask("count")

    def ask(self, line):
        self.process.stdin.write(line.encode() + b"\n")
        self.process.stdin.flush()
        return self.process.stdout.readline().decode().rstrip("\n")

    def fill(self, lines, count):
        """Adds all documents, and gives the seconds until the last reply."""
        def feed():
            self.process.stdin.write(lines)
            self.process.stdin.flush()

        feeder = threading.Thread(target=feed)
        start = time.perf_counter()
        feeder.start()
        for number in range(1, count + 1):
            reply = self.process.stdout.readline()
            if reply != b"added %d\n" % number:
                sys.exit(f"measure: document {number} was answered {reply!r}")
        seconds = time.perf_counter() - start
        feeder.join()
        return seconds

    def memory(self):
        """The most bytes of memory that the program has had."""
        status = pathlib.Path(f"/proc/{self.process.pid}/status").read_text()
        return int(re.search(r"VmHWM:\s+(\d+) kB", status).group(1)) * 1024

    def find(self, words):
        start = time.perf_counter()
        reply = self.ask("find " + " AND ".join(words))
        return time.perf_counter() - start, int(reply.split(":")[0].split()[1])

    def close(self):
        self.ask("quit")
        self.process.wait()


class Fts5:
    """SQLite FTS5 in memory."""

    def __init__(self, detail):
        self.base = sqlite3.connect(":memory:", isolation_level=None)
        self.base.execute(f"CREATE VIRTUAL TABLE documents USING fts5(text, detail={detail})")

    def fill(self, documents):
        start = time.perf_counter()
        self.base.execute("BEGIN")
        self.base.executemany("INSERT INTO documents(text) VALUES (?)", ((text,) for text in documents))
        self.base.execute("COMMIT")
        return time.perf_counter() - start

    def find(self, words):
        query = " AND ".join(f'"{word}"' for word in words)
        start = time.perf_counter()
        found = self.base.execute(
            "SELECT rowid FROM documents WHERE documents MATCH ? ORDER BY rowid", (query,)
        ).fetchall()
        return time.perf_counter() - start, len(found)

    def close(self):
        self.base.close()


def pick_queries(documents):
    """Words by the share of documents that have them: a rare one, one in ten, two common ones."""
    frequencies = collections.Counter()
    for text in documents:
        frequencies.update(set(re.findall(r"(?<![^\s])[a-z]{4,}(?![^\s])", text)))

    def nearest(share):
        wanted = share * len(documents)
        return sorted(frequencies, key=lambda word: (abs(frequencies[word] - wanted), word))

    rare, tenth, common = nearest(0.002)[0], nearest(0.1)[0], nearest(0.5)
    return [[rare], [tenth], [common[0]], [tenth, common[0]], common[:2]]


def asked(engine, words):
    """The median seconds of a find, and how many documents it found."""
    answers = [engine.find(words) for _ in range(ASKED)]
    return statistics.median(seconds for seconds, _ in answers), answers[0][1]


def processor():
    for line in pathlib.Path("/proc/cpuinfo").read_text().splitlines():
        if line.startswith("model name"):
            return line.split(":")[1].strip()
    return platform.processor()


def main():
    program = os.path.abspath(sys.argv[1])
    documents = pathlib.Path(sys.argv[2]).read_text().splitlines()
    runs = int(sys.argv[3]) if len(sys.argv) > 3 else 3
    size = sum(len(text.encode()) for text in documents)
    lines = "".join(f"add {text}\n" for text in documents).encode()
    queries = pick_queries(documents)
    peers = ["full", "none"]
    filled = collections.defaultdict(list)
    found = collections.defaultdict(list)
    hits = {}
    memory = 0
    for _ in range(runs):
        engine = Engine(program)
        filled["program"].append(engine.fill(lines, len(documents)))
        memory = max(memory, engine.memory())
        sides = {"program": engine}
        for detail in peers:
            sides[detail] = Fts5(detail)
            filled[detail].append(sides[detail].fill(documents))
        for name, side in sides.items():
            for place, words in enumerate(queries):
                seconds, hits[name, place] = asked(side, words)
                found[name, place].append(seconds)
            side.close()

    print(f"{len(documents)} documents, {size / 1e6:.1f} MB; {runs} runs, medians; "
          f"{processor()}; SQLite {sqlite3.sqlite_version}; {time.strftime('%Y-%m-%d')}")
    print(f"load as it ended: {os.getloadavg()[0]:.1f} on {os.cpu_count()} processors")
    print(f"most memory of the program: {memory / 1e6:.0f} MB, {memory / size:.1f} times the text")
    print()
    print("| what | program | FTS5 | FTS5, detail=none | program to FTS5 | to detail=none |")
    print("|---|---|---|---|---|---|")
    rate = {name: size / 1e6 / statistics.median(filled[name]) for name in filled}
    print(f"| add, MB/s | {rate['program']:.1f} | {rate['full']:.1f} | {rate['none']:.1f} "
          f"| {rate['program'] / rate['full']:.2f} | {rate['program'] / rate['none']:.2f} |")
    for place, words in enumerate(queries):
        times = {name: statistics.median(found[name, place]) * 1e3 for name in ["program", *peers]}
        print(f"| find {' AND '.join(words)}, ms | {times['program']:.3f} | {times['full']:.3f} "
              f"| {times['none']:.3f} | {times['program'] / times['full']:.2f} "
              f"| {times['program'] / times['none']:.2f} |")
    print()
    for place, words in enumerate(queries):
        print(f"found for {' AND '.join(words)}: program {hits['program', place]}, "
              f"FTS5 {hits['full', place]}")


if __name__ == "__main__":
    main()
