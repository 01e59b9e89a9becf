"""Finds over a segment of kind 1, two of kind 2 and the buffer: before a commit, after it, with a
deletion, and after a merge. Each answer is told from the texts."""

import unittest

from . import scripts, test_below

# A store with one segment of kind 1, of documents 1 `a b` and 3 `a`. The next number is 7.
STORE = """!disk 65536
!set 0 A7
!set 1024 50 4B 53 52 43 48 30 31 01 00 00 00 00 00 00 00 80 00 00 00 07 00 00 00
!set 1048 02 00 00 00 00 00 00 00 01 00 00 00
!set 1060 01 00 00 00 00 00 00 00 22 00 00 00 01 00 00 00 34 00 00 00 01
!set 17408 01 00 00 00 02 00 00 00 04 00 00 00 00 00 00 00 00 00 00 00 00 00 00 00
!set 17432 01 00 00 00 00 00 00 00 03 00 00 00 03 00 00 00 03 00 00 00 01 00 00 00
!set 17456 61 20 62 61
!open => opened"""

LAST = 405

# The words, and which documents have them.
WORDS = {
    "a": lambda n: n in (1, 3) or n % 5 == 0,
    "b": lambda n: n == 1,
    "f": lambda n: n >= 7,
    "r": lambda n: n % 190 == 0,
    "m": lambda n: n >= 7 and n % 3 == 0,
    "o": lambda n: n >= 7 and n % 2 == 1,
}

# Rare and frequent words, so that numbers are sought; words that no document has; a word alone,
# some that come twice, and those of one frequency; chains, `NOT` and brackets; words in a row, which
# stand in the order `afrmo` in a text, and beginnings: and which documents satisfy them, by their
# words.
QUERIES = {
    "r AND f": lambda w: "r" in w and "f" in w,
    "f AND NOT o AND r": lambda w: "f" in w and "o" not in w and "r" in w,
    "r AND m AND f": lambda w: {"r", "m", "f"} <= w,
    "z": lambda w: False,
    "z OR r": lambda w: "r" in w,
    "r AND z AND f": lambda w: False,
    "f AND NOT z AND NOT m": lambda w: "f" in w and "m" not in w,
    "a OR NOT f": lambda w: "a" in w or "f" not in w,
    "(a OR m) AND (o OR r)": lambda w: bool(w & {"a", "m"}) and bool(w & {"o", "r"}),
    "NOT (a OR m OR o)": lambda w: not w & {"a", "m", "o"},
    "r AND (m OR NOT f)": lambda w: "r" in w and ("m" in w or "f" not in w),
    "b AND NOT r": lambda w: "b" in w and "r" not in w,
    "r": lambda w: "r" in w,
    "NOT f": lambda w: "f" not in w,
    "m OR o OR r": lambda w: bool(w & {"m", "o", "r"}),
    "o AND m AND o": lambda w: {"o", "m"} <= w,
    "z AND b": lambda w: False,
    "(r OR m) AND NOT (r AND m) AND NOT z": lambda w: ("r" in w) != ("m" in w),
    '"f m"': lambda w: {"f", "m"} <= w and "r" not in w,
    '"m f"': lambda w: False,
    'r AND "m o"': lambda w: {"r", "m", "o"} <= w,
    'f AND NOT "f o"': lambda w: "f" in w and ("o" not in w or bool(w & {"r", "m"})),
    '"a f r" OR b*': lambda w: {"a", "f", "r"} <= w or "b" in w,
    "m* AND NOT r*": lambda w: "m" in w and "r" not in w,
    'NOT (f* AND "a f")': lambda w: not {"a", "f"} <= w,
}


def words_of(number):
    """The words of a document."""
    return {word for word, has in WORDS.items() if has(number)}


def ask_all(there):
    """All queries over the documents that are there."""
    for query, satisfies in QUERIES.items():
        numbers = [n for n in sorted(there) if satisfies(words_of(n))]
        yield " ".join([f"find {query} => found {len(numbers)}:", *map(str, numbers)])


def session():
    """The whole session."""
    there, lines = {1, 3}, STORE.splitlines()
    for number in range(7, LAST + 1):
        there.add(number)
        lines.append(" ".join(["add", *(w for w in "afrmo" if w in words_of(number)),
                               f"=> added {number}"]))
        if number in (310, 400):
            lines += [*ask_all(there), "commit => committed", *ask_all(there)]
    there.remove(380)
    lines += ["delete 380 => deleted 380", *ask_all(there), "merge => merged", *ask_all(there)]
    return lines


def row():
    """The session as a script."""
    lines = [scripts.Line("searching", number, text, 4) for number, text in enumerate(session(), 1)]
    return scripts.Row("test_searching.py", "searching", "script", "answers",
                       scripts.BLOCKS + scripts.PAGES, lines)


class Searching(unittest.TestCase):
    """The session."""

    def test_each_query_finds_its_documents(self):
        """In each setting."""
        told = scripts.differences([scripts.input_of(row(), setting) for setting in row().settings])
        self.assertEqual(told, "", f"\n{told}")

    def test_each_query_with_each_call_below_failing(self):
        """On a page cache."""
        test_below.play(self, row())
