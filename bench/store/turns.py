"""Measures what two programs do with a store, in turns: one of before and one of today.

    turns.py EARLIER PROGRAM LINES FOLDER [ROUNDS]

LINES has a text a line. In each round each program fills a new store with the texts, each 4,096 made
lasting, opens it, shows 1,000 documents, deletes every tenth document and makes that lasting, checks
the store, where both have a check, and merges it into one segment. They take turns in going first,
and of each the best round counts: two programs that are nearly alike want some rounds when the
machine is at rest. What the two stores have is compared byte by byte, as they were filled and at the
end.
"""

import filecmp
import os
import pathlib
import subprocess
import sys
import time

from measure import fill_program, processor, show_anew, show_each, shown_numbers
from peers import UNIT, Program, merged, size_on_disk

ROUNDS = 9
DELETED_EACH = 10
SIDES = ("earlier", "program")


def timed(action):
    """The seconds that an action takes."""
    start = time.perf_counter()
    action()
    return time.perf_counter() - start


def count(program, path):
    """Opens a store, and is told how many documents it has."""
    session = Program(program, path)
    session.count()
    session.close()


def delete(program, path, texts):
    """Seconds of deleting every tenth document."""
    session = Program(program, path)
    seconds = timed(lambda: session.delete(range(1, len(texts) + 1, DELETED_EACH)))
    session.close()
    return seconds


def check(program, path):
    """Seconds of a check; endless where the program has none."""
    start = time.perf_counter()
    checked = subprocess.run([program, "check", path], capture_output=True, check=False)
    return time.perf_counter() - start if checked.returncode == 0 else float("inf")


def fill(program, path, texts):
    """What filling a store with room for a merge takes, and what is asked of it as it was filled."""
    written = sum(len(text.encode()) + 12 for text in texts)
    seconds, used = fill_program(program, path, texts, 4 * written // UNIT)
    return {
        "fill, s": seconds,
        "fill, processor s": used,
        "opening and count, s": min(timed(lambda: count(program, path)) for _ in range(11)),
        "1,000 shows, s": show_anew(lambda: Program(program, path), show_each,
                                    shown_numbers(texts), texts),
    }


def change(program, path, texts):
    """What deletions, a check and a merge take."""
    deleting, checking = delete(program, path, texts), check(program, path)
    merging, memory = merged(program, "run", path)
    return {
        "every tenth deleted, s": deleting,
        "check, s": checking,
        "merge, s": merging,
        "merge, most memory, MB": memory / 1e6,
    }


def go_round(number, programs, paths, texts, best):
    """One round, whose figures go into the best ones; whether the stores have the same bytes as they
    were filled, and at the end."""
    alike = []
    for step in (fill, change):
        for side in (0, 1) if number % 2 else (1, 0):
            for what, seconds in step(programs[side], paths[side], texts).items():
                told = best.setdefault(what, [float("inf")] * 2)
                told[side] = min(told[side], seconds)
        alike.append(filecmp.cmp(*paths, shallow=False))
    return alike


def main():
    programs = [os.path.abspath(program) for program in sys.argv[1:3]]
    lines, folder = sys.argv[3:5]
    rounds = int(sys.argv[5]) if len(sys.argv) > 5 else ROUNDS
    texts = pathlib.Path(lines).read_text(encoding="utf-8").split("\n")[:-1]
    paths = [f"{folder}/{side}" for side in SIDES]
    best, alike = {}, []
    for number in range(rounds):
        alike.append(go_round(number, programs, paths, texts, best))
    print(f"{len(texts)} documents, {rounds} rounds; {processor()}; {time.strftime('%Y-%m-%d')}; "
          f"load {os.getloadavg()[0]:.1f} on {os.cpu_count()} processors")
    for when, same in zip(("as filled", "at the end"), zip(*alike)):
        print(f"bytes of the two stores {when}: {'the same' if all(same) else 'not the same'}")
    print(f"\n| what | {' | '.join(SIDES)} | ratio |\n|---|---|---|---|")
    for what, told in best.items():
        if max(told) < float("inf"):
            earlier, today = told
            print(f"| {what} | {earlier:.4f} | {today:.4f} | {today / earlier:.2f} |")
    print("| file, MB | " + " | ".join(f"{size_on_disk(path) / 1e6:.1f}" for path in paths) + " | |")


if __name__ == "__main__":
    main()
