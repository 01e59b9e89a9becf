"""Measures a phrase over texts near each other by two programs, as one that reads them in spans and
one that reads each by itself.

    near.py EARLIER PROGRAM FOLDER [DOCUMENTS]

Stores of one segment are made in FOLDER, of texts of a few lengths: all of them, every second or
every fourth has the phrase's words, but not in a row, so that its text is sought through. A build
that reads each text by itself is one of the program in whose crates/pk_phrase/src/in_row.rt
COPIED_PER_CALL is 2^63. The programs take turns, and of each the best round counts.
"""

import os
import pathlib
import random
import subprocess
import sys

sys.path.insert(0, str(pathlib.Path(__file__).parent))
from measure import BATCH, ROUNDS, Peer, timed  # noqa: E402

DOCUMENTS = 50_000
LENGTHS = 40, 100, 300
EACH = 1, 2, 4
LINE = b'find "quick fox"\n'


def texts(count, length, each):
    """So many texts of a length; of so many each one has both words, never one behind the other."""
    draw = random.Random(1)
    for number in range(count):
        begin = f"fox w{number} quick" if number % each == 0 else f"dog w{number} slow"
        words = (f"{draw.randrange(10_000):04}" for _ in range((length - len(begin)) // 5))
        yield " ".join([begin, *words])


def fill(program, path, lines):
    """Makes a store of these texts in one segment."""
    pathlib.Path(path).unlink(missing_ok=True)
    subprocess.run([program, "create", "--units", "1048576", path], stdout=subprocess.DEVNULL,
                   check=True)
    peer = Peer(program, "run", path)
    for number, line in enumerate(lines, 1):
        ask(peer, f"add {line}")
        if number % BATCH == 0:
            ask(peer, "commit")
    for command in ("commit", "merge"):
        ask(peer, command)
    peer.close()


def ask(peer, command):
    """Asks a command that may not be refused."""
    reply = peer.ask(f"{command}\n".encode())
    if reply.startswith(b"refused"):
        sys.exit(f"near.py: {command[:20]}: {reply.decode()}")


def main():
    programs, folder = sys.argv[1:3], sys.argv[3]
    count = int(sys.argv[4]) if len(sys.argv) > 4 else DOCUMENTS
    print(f"load {os.getloadavg()[0]:.1f} on {os.cpu_count()} processors\n")
    print("| bytes of a text | one sought of | earlier, ns each | program | ratio |")
    print("|---|---|---|---|---|")
    for length in LENGTHS:
        for each in EACH:
            path = f"{folder}/near"
            fill(programs[1], path, texts(count, length, each))
            least = [float("inf")] * 2
            for _ in range(ROUNDS):
                for side, program in enumerate(programs):
                    peer = Peer(program, "run", path)
                    spent = timed(peer, LINE) * 1_000 / (count // each)
                    peer.close()
                    least[side] = min(least[side], spent)
            print(f"| {length} | {each} | {least[0]:.0f} | {least[1]:.0f} | {least[1] / least[0]:.2f} |")


if __name__ == "__main__":
    main()
