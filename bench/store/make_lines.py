"""Writes lines of English text.

    make_lines.py SOURCE LINES BYTES > lines

SOURCE is English text; its white space becomes single spaces, and it is cut at spaces into lines as
long as BYTES allow, a space at the end of each counted. A text that ends too soon is begun again.
For an empty SOURCE words are drawn by chance, as words/make_text.py draws them.
"""

import pathlib
import sys

sys.path.insert(0, str(pathlib.Path(__file__).parent.parent / "words"))
from make_text import drawn  # noqa: E402

DRAWN_BYTES = 40_000_000


def lines_of(source, count, longest):
    """`count` lines of a text that has single spaces, the last of them at its end."""
    text, place = source, 0
    for _ in range(count):
        if len(text) - place < longest:
            text, place = text[place:] + source, 0
        end = text.rindex(b" ", place, place + longest)
        yield text[place:end]
        place = end + 1


def main():
    source, count, longest = pathlib.Path(sys.argv[1]), int(sys.argv[2]), int(sys.argv[3])
    words = (source.read_text(errors="ignore") or drawn(DRAWN_BYTES)).split()
    text = (" ".join(words) + " ").encode()
    for line in lines_of(text, count, longest):
        sys.stdout.buffer.write(line + b"\n")


if __name__ == "__main__":
    main()
