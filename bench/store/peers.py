"""What is measured: the program over a pipe, SQLite in this process, Xapian by a small program."""

import os
import pathlib
import re
import sqlite3
import subprocess
import threading
import time

BATCH = 4_096
UNIT = 512


def replies_to(count, batch):
    """What the program answers to `count` added lines with a commit after each batch."""
    for number in range(1, count + 1):
        yield b"added %d\n" % number
        if number % batch == 0 or number == count:
            yield b"committed\n"


def asks_for(texts, batch):
    """The lines that add the texts, with a commit after each batch."""
    for start in range(0, len(texts), batch):
        for text in texts[start : start + batch]:
            yield f"add {text}\n"
        yield "commit\n"


def segments(path):
    """The bytes of each segment of a store, by the body in force and its table (docs/FORMATS.md)."""
    with open(path, "rb") as file:
        units = file.read(34 * UNIT)

        def number(place, size):
            return int.from_bytes(units[place : place + size], "little")

        bodies = [start * UNIT for gate, start in ((0, 2), (1, 18)) if units[gate * UNIT] == 0xA7]
        body = max(bodies, key=lambda body: number(body + 8, 8))
        file.seek(number(body + 36, 4) * UNIT)
        table = file.read(number(body + 44, 4))
    entries = range(0, len(table), 40)
    return [int.from_bytes(table[entry + 16 : entry + 20], "little") for entry in entries]


class Program:
    """A session of the program over a store: one line, one reply line."""

    def __init__(self, program, path):
        self.process = subprocess.Popen(
            [program, "run", path], stdin=subprocess.PIPE, stdout=subprocess.PIPE
        )

    @staticmethod
    def create(program, path, units):
        command = [program, "create", path, "--units", str(units)]
        subprocess.run(command, check=True, stdout=subprocess.DEVNULL)

    def ask(self, line):
        self.process.stdin.write(line.encode() + b"\n")
        self.process.stdin.flush()
        return self.process.stdout.readline().decode().rstrip("\n")

    def expect(self, line, wanted):
        """Asks a line that is to be answered so."""
        reply = self.ask(line)
        if reply != wanted:
            raise SystemExit(f"measure: the program answered {line!r} by {reply!r}")

    def fill(self, texts, batch=BATCH):
        """Adds the texts, with a commit after each batch; the seconds until the last reply."""
        lines = "".join(asks_for(texts, batch)).encode()
        wanted = b"".join(replies_to(len(texts), batch))

        def feed():
            self.process.stdin.write(lines)
            self.process.stdin.flush()

        feeder = threading.Thread(target=feed, daemon=True)
        replies = []
        missing = len(wanted)
        start = time.perf_counter()
        feeder.start()
        while missing > 0:
            reply = os.read(self.process.stdout.fileno(), 65_536)
            if not reply or b"refused" in reply:
                raise SystemExit(f"measure: the program answered {reply[:200]!r}")
            replies.append(reply)
            missing -= len(reply)
        seconds = time.perf_counter() - start
        feeder.join()
        if b"".join(replies) != wanted:
            raise SystemExit("measure: the program's replies are not those of added lines")
        return seconds

    def add(self, text):
        """Adds a text and commits it."""
        self.ask(f"add {text}")
        self.expect("commit", "committed")

    def delete(self, numbers):
        """Deletes the documents, one after the other, and commits."""
        for number in numbers:
            self.expect(f"delete {number}", f"deleted {number}")
        self.expect("commit", "committed")

    def count(self):
        return int(self.ask("count").split()[1])

    def find(self, word):
        return int(self.ask(f"find {word}").split(":")[0].split()[1])

    @staticmethod
    def text_of(reply):
        """The text that a reply to `show` gives."""
        return reply.removeprefix("text ").replace("\\\\", "\\")

    def show(self, number):
        return self.text_of(self.ask(f"show {number}"))

    def show_in_row(self, numbers):
        """Shows the numbers, without waiting for an answer before the next is asked."""
        lines = "".join(f"show {number}\n" for number in numbers).encode()

        def feed():
            self.process.stdin.write(lines)
            self.process.stdin.flush()

        feeder = threading.Thread(target=feed, daemon=True)
        feeder.start()
        replies = [self.process.stdout.readline() for _ in numbers]
        feeder.join()
        return [self.text_of(reply.decode().rstrip("\n")) for reply in replies]

    def close(self):
        self.ask("quit")
        self.process.wait()


class Fts5:
    """An FTS5 table with its texts in a file, without positions of words."""

    table = "CREATE VIRTUAL TABLE documents USING fts5(text, detail=none)"

    def __init__(self, path):
        self.base = sqlite3.connect(path, isolation_level=None)
        self.base.execute("PRAGMA journal_mode=DELETE")
        self.base.execute("PRAGMA synchronous=FULL")

    def create(self):
        self.base.execute(self.table)

    def fill(self, texts, batch=BATCH):
        """Adds the texts, a transaction for each batch, and gives the seconds."""
        rows = [(text,) for text in texts]
        start = time.perf_counter()
        for first in range(0, len(rows), batch):
            self.base.execute("BEGIN")
            self.base.executemany("INSERT INTO documents(text) VALUES (?)", rows[first : first + batch])
            self.base.execute("COMMIT")
        return time.perf_counter() - start

    def add(self, text):
        """Adds a text in a transaction of its own."""
        self.base.execute("INSERT INTO documents(text) VALUES (?)", (text,))

    def delete(self, numbers):
        """Deletes the documents in one transaction."""
        self.base.execute("BEGIN")
        rows = ((number,) for number in numbers)
        self.base.executemany("DELETE FROM documents WHERE rowid = ?", rows)
        self.base.execute("COMMIT")

    def optimize(self):
        """Makes its index one."""
        self.base.execute("INSERT INTO documents(documents) VALUES ('optimize')")

    def used_bytes(self):
        """The bytes of the file's pages that are in use."""
        values = ("page_count", "freelist_count", "page_size")
        pages, free, size = (self.base.execute(f"PRAGMA {it}").fetchone()[0] for it in values)
        return (pages - free) * size

    def index_bytes(self):
        """The bytes of the index, without the texts."""
        return self.base.execute("SELECT sum(length(block)) FROM documents_data").fetchone()[0]

    def count(self):
        return self.base.execute("SELECT count(*) FROM documents").fetchone()[0]

    def find(self, word):
        query = "SELECT rowid FROM documents WHERE documents MATCH ? ORDER BY rowid"
        return len(self.base.execute(query, (f'"{word}"',)).fetchall())

    def show(self, number):
        return self.base.execute("SELECT text FROM documents WHERE rowid = ?", (number,)).fetchone()[0]

    def show_in_row(self, numbers):
        """Shows the numbers: there is nothing to wait for."""
        return [self.show(number) for number in numbers]

    def close(self):
        self.base.close()


class Table(Fts5):
    """The texts in a table that has no index of their words, so that it finds nothing."""

    table = "CREATE TABLE documents(text TEXT)"


class Fts5Positions(Fts5):
    """The same with positions of words, which phrases want."""

    table = "CREATE VIRTUAL TABLE documents USING fts5(text)"


class Xapian:
    """A database of Xapian, by the program of bench/finds/xapian.cc; an index of Lucene, by that of
    bench/finds/Lucene.java, which takes the same."""

    def __init__(self, program, path):
        self.program, self.path = program, path

    def run(self, task, lines, *more):
        """What the program prints to the lines."""
        text = "".join(f"{line}\n" for line in lines)
        command = [self.program, task, self.path, *more]
        ran = subprocess.run(command, input=text, text=True, check=True, stdout=subprocess.PIPE)
        return ran.stdout

    def fill(self, texts, positions=False):
        """Makes it of the texts; with positions of words where these are wanted."""
        self.run("fill", texts, *["positions"] * positions)

    def delete(self, numbers):
        self.run("delete", numbers)

    def count(self):
        return self.find("*")

    def find(self, word):
        return int(self.run("ask", [word]).split(":")[0].split()[1])

    def close(self):
        """Each task is a process of its own, so that nothing is open."""


def merged(*command):
    """Has a process merge what was synced before: seconds from its start to its reply, and the most
    memory that it had."""
    os.sync()
    start = time.perf_counter()
    process = subprocess.Popen(command, stdin=subprocess.PIPE, stdout=subprocess.PIPE)
    process.stdin.write(b"merge\n")
    process.stdin.flush()
    reply = process.stdout.readline()
    seconds = time.perf_counter() - start
    if reply != b"merged\n":
        raise SystemExit(f"measure: {command[0]} answered {reply!r}")
    status = pathlib.Path(f"/proc/{process.pid}/status").read_text()
    memory = 1_024 * int(re.search(r"VmHWM:\s+(\d+) kB", status)[1])
    process.stdin.close()
    process.wait()
    return seconds, memory


def size_on_disk(path):
    """The bytes that the system holds for a file: a hole in it takes none."""
    return pathlib.Path(path).stat().st_blocks * 512
