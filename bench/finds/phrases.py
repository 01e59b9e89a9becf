"""Measures finds of phrases and of prefixes of words beside SQLite FTS5, Xapian and Lucene.

    phrases.py PROGRAM LINES FOLDER

LINES has a text a line, of small letters, digits and spaces, which all cut into the same words;
FOLDER has what measure.py wants there. The peers keep positions of words; a second base of FTS5
keeps none, and is asked for prefixes alone. Queries are asked as in measure.py, as the stores
were filled and then merged, optimized and compacted, and all answers must agree.
"""

import collections
import itertools
import os
import pathlib
import platform
import re
import sqlite3
import sys
import time

sys.path.insert(0, str(pathlib.Path(__file__).parent))
from measure import (  # noqa: E402
    ALONE,
    Peer,
    Side,
    ask_all,
    bytes_below,
    digits,
    fill_others,
    merge_others,
    open_others,
    others,
)
from peers import BATCH, Fts5, Fts5Positions, Program, merged, segments  # noqa: E402

# How many words are to have a prefix.
PREFIXES = 20, 1_000, 20_000

# Phrases that are always asked: a word of one letter, which a search sees everywhere, and one that
# stands in few of the texts that have its words.
FIXED = {"a word of one letter": ("in", "a"), "words of few letters": ("act", "on")}

# The bases of FTS5 by the names of their sides.
BASES = {"FTS5": ("positions", Fts5Positions), "FTS5, no positions": ("base", Fts5)}


def pairs(words):
    """The two words of each place."""
    return zip(words, words[1:])


def is_plain(words):
    """Whether they are words of small letters, two at least each."""
    return all(re.fullmatch("[a-z]{2,}", word) for word in words)


def counted(texts, pieces):
    """In how many texts each piece is."""
    counts = collections.Counter()
    for text in texts:
        counts.update(set(pieces(text.split())))
    return counts


def pick_phrases(texts):
    """Phrases by their names: the one that most texts have, of two words of about 20 texts, of a
    fiftieth of them, and of all; of two words that a third has, one that about 20 texts have; and
    three words that many have."""
    words, rows = counted(texts, iter), counted(texts, pairs)
    rows = {row: count for row, count in rows.items() if is_plain(row)}

    def most(fewest, upper):
        """The most frequent pair of words of so many texts."""
        able = (row for row in rows if all(fewest <= words[word] <= upper for word in row))
        return max(able, key=lambda row: (rows[row], row), default=None)

    common = [row for row in rows if all(words[word] >= len(texts) / 3 for word in row)]
    frequent = most(0, len(texts))
    picked = {
        "rare words": most(10, 40),
        "middling words": most(len(texts) / 100, len(texts) / 25),
        "frequent words": frequent,
        "frequent words, seldom in a row": min(
            common, key=lambda row: (abs(rows[row] - 20), row), default=None
        ),
        "three words": longer(texts, frequent),
    }
    return {name: row for name, row in picked.items() if row}


def longer(texts, row):
    """The two words with the one that most texts have behind them."""
    thirds = collections.Counter()
    for text in texts:
        words = text.split()
        triples = zip(words, words[1:], words[2:])
        thirds.update({third for *two, third in triples if tuple(two) == row})
    able = [word for word in thirds if is_plain([word])]
    return (*row, max(able, key=lambda word: (thirds[word], word))) if able else None


def pick_prefixes(texts):
    """Prefixes with how many words have them."""
    vocabulary = set(itertools.chain.from_iterable(text.split() for text in texts))
    counts = collections.Counter(
        word[:length] for word in vocabulary for length in range(1, min(len(word), 6) + 1)
    )
    able = [prefix for prefix in counts if re.fullmatch("[a-z]+", prefix)]
    picked = (min(able, key=lambda it: (abs(counts[it] - wanted), it)) for wanted in PREFIXES)
    return {prefix: counts[prefix] for prefix in picked}


def finds_of(texts):
    """Name, the program's query, FTS5's, that of Xapian and Lucene, and whether it wants positions."""
    finds, picked = [], pick_phrases(texts)
    fixed = {name: row for name, row in FIXED.items() if row not in picked.values()}
    for name, row in (picked | fixed).items():
        phrase = " ".join(row)
        finds.append((f"{name}, `{phrase}`", f'"{phrase}"', f'"{phrase}"', "+".join(row), True))
    for prefix, count in pick_prefixes(texts).items():
        query = f"{prefix}*"
        finds.append((f"{count:,} words, `{query}`", query, query, query, False))
    return finds


def fill(program, texts, folder):
    """The texts in a store, two bases, and what the others keep."""
    for name in ("store", *(base for base, _ in BASES.values())):
        pathlib.Path(f"{folder}/{name}").unlink(missing_ok=True)
    size = sum(len(text) for text in texts)
    Program.create(program, f"{folder}/store", max(4_096, size // 64))
    session = Program(program, f"{folder}/store")
    session.count()
    session.fill(texts)
    session.close()
    for base, kind in BASES.values():
        table = kind(f"{folder}/{base}")
        table.create()
        table.fill(texts)
        table.close()
    fill_others(texts, folder, positions=True)


def merge(program, folder):
    """The same in one segment each."""
    merged(program, "run", f"{folder}/store")
    for base, _ in BASES.values():
        merged(f"{folder}/fts5", "merge", f"{folder}/{base}")
    merge_others(folder)


def open_sides(program, folder):
    """The program and its peers, open, with what they are asked."""
    with_positions, without = (
        Peer(f"{folder}/fts5", "ask", f"{folder}/{base}") for base, _ in BASES.values()
    )
    sides = [
        Side("program", Peer(program, "run", f"{folder}/store"), lambda find: f"find {find[1]}"),
        Side("FTS5", with_positions, lambda find: find[2]),
        Side("FTS5, no positions", without, lambda find: None if find[4] else find[2]),
    ]
    return sides + open_others(folder)


def show_sizes(folder):
    """Prints how many bytes each side keeps."""
    told = [f"program {sum(segments(f'{folder}/store')):,}"]
    for name, (base, kind) in BASES.items():
        table = kind(f"{folder}/{base}")
        told.append(f"{name} {table.used_bytes():,}")
        table.close()
    told += [f"{name.title()} {bytes_below(path):,}" for name, path in others(folder).items()]
    print(f"\nBytes kept: {'; '.join(told)}")


def cell(row, name):
    """A side's microseconds, if it was asked."""
    return digits(row.spent[name]) if name in row.spent else "-"


def show(title, rows):
    """Prints a table of finds."""
    names = [name for name in rows[-1].spent if name != ALONE]
    heads = ["find", "found", *(f"{name}, µs" for name in names), "to FTS5", "to the best peer"]
    heads += [f"{ALONE}, µs"]
    print(f"\n{title}\n\n| {' | '.join(heads)} |\n|{len(heads) * '---|'}")
    for row in rows:
        ours, theirs = row.spent["program"], [row.spent[it] for it in names[1:] if it in row.spent]
        cells = [row.name, f"{row.found:,}", *(cell(row, name) for name in names)]
        cells += [f"{ours / row.spent['FTS5']:.2f}", f"{ours / min(theirs):.2f}"]
        cells.append(digits(row.spent[ALONE]))
        print(f"| {' | '.join(cells)} |", flush=True)


def ask_both(stored, program, finds, folder):
    """Asks all, and prints both tables."""
    show_sizes(folder)
    waited, in_a_row = ask_all(open_sides(program, folder), finds, folder)
    show(f"{stored}, one after the other:", waited)
    show(f"{stored}, in a row, without waiting:", in_a_row)


def main():
    program, lines, folder = sys.argv[1:4]
    texts = pathlib.Path(lines).read_text(encoding="ascii").splitlines()
    finds = finds_of(texts)
    fill(program, texts, folder)
    model = re.search(r"model name\s*: (.*)", pathlib.Path("/proc/cpuinfo").read_text())
    size = sum(map(len, texts))
    print(
        f"\n{len(texts)} documents, {size / 1e6:.1f} MB, {size // len(texts):,} bytes each; "
        f"{model[1] if model else platform.machine()}; SQLite {sqlite3.sqlite_version}; "
        f"{time.strftime('%Y-%m-%d')}; load {os.getloadavg()[0]:.1f} on {os.cpu_count()} processors"
    )
    ask_both(f"As they were filled, by {-(-len(texts) // BATCH)} commits", program, finds, folder)
    merge(program, folder)
    ask_both("Merged into one", program, finds, folder)


if __name__ == "__main__":
    main()
