"""Makes plain text of links in documents of a folder that lead to nothing in it.

    links.py FOLDER
"""

import pathlib
import re
import sys

LINK = re.compile(r"\[([^][]+)\]\(([^()#]*)(#[^()]*)?\)")


def main():
    """Writes each document anew."""
    for path in pathlib.Path(sys.argv[1]).rglob("*.md"):
        def kept(link, folder=path.parent):
            target = link[2]
            is_there = not target or "://" in target or (folder / target).exists()
            return link[0] if is_there else link[1]
        path.write_text(LINK.sub(kept, path.read_text("utf-8")), "utf-8")


if __name__ == "__main__":
    main()
