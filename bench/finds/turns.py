"""Measures finds of two programs over the same store, in turns: of one of before and one of today.

    turns.py EARLIER PROGRAM LINES FOLDER [read]

With `read` the second answers in sessions that only read. LINES has a text a line. EARLIER fills a
store with the texts, each 4,096 made lasting, and each program answers over a copy of it, so neither
reads what the other wrote since. Every query of
measure.py is asked of both over a pipe, each when the last is answered and many in a row. They take
turns, in rounds that go through all queries, and of each the best round counts: two programs that are
nearly alike want more rounds than peers, and some when the machine is at rest. First as the store was
filled, then merged into one segment.
"""

import pathlib
import shutil
import sys

from measure import Peer, classes, digits, pick_words, timed, timed_row
from peers import Program, merged

ROUNDS = 31
NAMES = ("earlier", "program")


def fill(program, texts, store):
    """The texts in a new store."""
    pathlib.Path(store).unlink(missing_ok=True)
    Program.create(program, store, max(4_096, 4 * len(texts)))
    session = Program(program, store)
    session.fill(texts)
    session.close()


def answers(peers, finds):
    """The line and the reply of each find, in which both have to agree."""
    lines = [f"find {query}\n".encode() for _, query, *_ in finds]
    replies = [{peer.ask(line) for peer in peers} for line in lines]
    unlike = [line for line, told in zip(lines, replies) if len(told) > 1]
    if unlike:
        raise SystemExit(f"turns: {unlike[0]!r} is answered otherwise")
    return [(line, told.pop()) for line, told in zip(lines, replies)]


def ask_round(number, peers, answered, waited, in_a_row):
    """Asks each find of both, and keeps the microseconds of each that are the least."""
    for at, (line, reply) in enumerate(answered):
        for side in (0, 1) if number % 2 else (1, 0):
            spent = timed(peers[side], line)
            waited[at][side] = min(waited[at][side], spent)
            in_a_row[at][side] = min(in_a_row[at][side], timed_row(peers[side], line, spent, reply))


def show(title, sessions, finds, store):
    """Prints a table of finds in a store, by sessions: each a program and its command."""
    heads = ["find", "found", *(f"{it}, µs" for it in NAMES), "ratio"]
    heads += [*(f"{it} in a row, µs" for it in NAMES), "ratio"]
    print(f"\n{title}:\n\n| {' | '.join(heads)} |\n|{len(heads) * '---|'}")
    copies = [f"{store}.{name}" for name in NAMES]
    for copy in copies:
        shutil.copyfile(store, copy)
    peers = [Peer(*session, copy) for session, copy in zip(sessions, copies)]
    answered = answers(peers, finds)
    waited, in_a_row = ([[float("inf")] * 2 for _ in finds] for _ in range(2))
    for number in range(ROUNDS):
        ask_round(number, peers, answered, waited, in_a_row)
    for find, (_, reply), *both in zip(finds, answered, waited, in_a_row):
        cells = [find[0], f"{len(reply.split(b':')[1].split()):,}"]
        for spent in both:
            cells += [*map(digits, spent), f"{spent[1] / spent[0]:.2f}"]
        print(f"| {' | '.join(cells)} |", flush=True)
    for peer in peers:
        peer.close()


def main():
    earlier, program, lines, folder, command = [*sys.argv[1:], "run"][:5]
    sessions = (earlier, "run"), (program, command)
    texts = pathlib.Path(lines).read_text(encoding="utf-8").splitlines()
    finds = classes(*pick_words(texts))
    store = f"{folder}/turns"
    fill(earlier, texts, store)
    show("As it was filled", sessions, finds, store)
    merged(earlier, "run", store)
    show("Merged into one", sessions, finds, store)


if __name__ == "__main__":
    main()
