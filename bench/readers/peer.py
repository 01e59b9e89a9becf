"""Answers lines as the program does, over SQLite FTS5 in WAL mode or over Xapian.

    peer.py KIND ROLE PATH      KIND: fts5 or xapian; ROLE: run, which writes, or read

Its lines are `add T`, `commit` and `find W`, W being one word, and `begun` tells how often a find
was begun anew since the writer had taken away what it read.
"""

import re
import sqlite3
import sys


class Fts5:
    """A table without positions of words, each batch a transaction."""

    TABLE = "CREATE VIRTUAL TABLE IF NOT EXISTS documents USING fts5(text, detail=none)"
    begun = 0

    def __init__(self, role, path):
        self.base = sqlite3.connect(path, isolation_level=None)
        if role == "run":
            self.base.execute("PRAGMA journal_mode=WAL")
            self.base.execute("PRAGMA synchronous=FULL")
            self.base.execute(self.TABLE)
            self.base.execute("BEGIN")

    def add(self, text):
        return self.base.execute("INSERT INTO documents (text) VALUES (?)", (text,)).lastrowid

    def commit(self):
        self.base.execute("COMMIT")
        self.base.execute("BEGIN")

    def find(self, word):
        asked = "SELECT rowid FROM documents WHERE documents MATCH ? ORDER BY rowid"
        return [row[0] for row in self.base.execute(asked, (word,))]


class Xapian:
    """A database of documents with their texts, and words without positions."""

    TRIES = 1_000

    def __init__(self, role, path):
        import xapian
        self.xapian, self.begun = xapian, 0
        if role == "run":
            self.base = xapian.WritableDatabase(path, xapian.DB_CREATE_OR_OPEN)
        else:
            self.base = xapian.Database(path)

    def add(self, text):
        document = self.xapian.Document()
        document.set_data(text)
        for word in set(re.findall(r"\w+", text.lower())):
            document.add_boolean_term(word)
        return self.base.add_document(document)

    def commit(self):
        self.base.commit()

    def find(self, word):
        for _ in range(self.TRIES):
            try:
                self.base.reopen()
                return [posting.docid for posting in self.base.postlist(word)]
            except self.xapian.DatabaseModifiedError:
                self.begun += 1
        raise SystemExit("peer: no find ends")


def reply(peer, line):
    """What a line is answered."""
    command, _, rest = line.partition(" ")
    if command == "add":
        return f"added {peer.add(rest)}"
    if command == "commit":
        peer.commit()
        return "committed"
    if command == "begun":
        return str(peer.begun)
    numbers = peer.find(rest)
    return " ".join([f"found {len(numbers)}:", *map(str, numbers)])


def main():
    kind, role, path = sys.argv[1:]
    peer = {"fts5": Fts5, "xapian": Xapian}[kind](role, path)
    for line in sys.stdin:
        sys.stdout.write(reply(peer, line.rstrip("\n")) + "\n")
        sys.stdout.flush()


if __name__ == "__main__":
    main()
