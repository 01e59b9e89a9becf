"""Measures the finds of two programs over one store, as one with its page cache and one without.

    pages.py PROGRAM OTHER LINES FOLDER

FOLDER has the merged store that run.sh left, and LINES its texts. A build without pages is one of
the program in whose crates/pk_command/src/running.rt PAGES is 0.
"""

import os
import pathlib
import subprocess
import sys

sys.path.insert(0, str(pathlib.Path(__file__).parent))
from measure import Peer, classes, pick_words, timed  # noqa: E402


def reads(program, folder, lines):
    """How many reads of the file the lines take, opening and all; None without strace."""
    told = f"{folder}/calls"
    command = ["strace", "-c", "-e", "trace=pread64", "-o", told, program, "run", f"{folder}/store"]
    try:
        subprocess.run(command, input=lines, stdout=subprocess.DEVNULL, check=True)
    except FileNotFoundError:
        return None
    rows = [row.split() for row in pathlib.Path(told).read_text(encoding="ascii").splitlines()]
    return next(int(row[3]) for row in rows if row[-1:] == ["pread64"])


def main():
    programs, lines, folder = sys.argv[1:3], sys.argv[3], sys.argv[4]
    texts = pathlib.Path(lines).read_text(encoding="utf-8").splitlines()
    print(f"load {os.getloadavg()[0]:.1f} on {os.cpu_count()} processors\n")
    print("| find | program, µs | the other, µs | to the other | reads of 100 finds | of the other's |")
    print("|---|---|---|---|---|---|")
    for name, query, _, _ in classes(*pick_words(texts)):
        line = f"find {query}\n".encode()
        spent, asked = [], []
        for program in programs:
            peer = Peer(program, "run", f"{folder}/store")
            spent.append(timed(peer, line))
            peer.close()
            before, after = reads(program, folder, b""), reads(program, folder, 100 * line)
            asked.append("-" if after is None else f"{after - before:,}")
        ratio = spent[0] / spent[1]
        print(f"| {name} | {spent[0]:,.0f} | {spent[1]:,.0f} | {ratio:.2f} | {asked[0]} | {asked[1]} |")


if __name__ == "__main__":
    main()
