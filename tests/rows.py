"""Lists the rows by the promises that they show.

    python3 -m tests.rows [PROMISE ..]
"""

import sys

from . import scripts


def main(wanted):
    """Prints those of the wanted promises, or of all."""
    shown = {}
    for file in scripts.files():
        for row in file.rows:
            shown.setdefault(row.promise, []).append(f"{row.kind} {row.title} ({row.file})")
    for promise in sorted(shown):
        if not wanted or promise in wanted:
            print(promise, *(f"    {row}" for row in shown[promise]), sep="\n")


if __name__ == "__main__":
    main(sys.argv[1:])
