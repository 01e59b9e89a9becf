"""A prompt."""

from __future__ import annotations

import os
import sys
from collections.abc import Iterator
from contextlib import suppress

from . import commits, queries, searching
from .actions import number, opened
from .errors import Misused, Refused, tell
from .layout import split
from .results import Results, as_line
from .store import Store

TYPE_CHECKING = False
if TYPE_CHECKING:
    from .commands import Given

TYPED = ["add", "commit", "count", "delete", "find", "help", "merge", "quit", "show", "tidy",
         *(f"{name}:" for name in queries.FIELDS), "AND", "OR", "NOT"]
SHOWN = 20  # Documents that a find shows.
HISTORY = "~/.rubewola_history"


def _lines() -> Iterator[str]:
    """What is typed; at a terminal with completion, and with what was typed before."""
    history = None
    if sys.stdin is None:
        raise Misused("standard input is closed")
    sys.stdin.reconfigure(errors="surrogateescape")  # A line that is no text is refused, it alone.
    with suppress(ImportError, OSError):  # A Python without readline has a plain prompt.
        import readline
        if sys.stdin.isatty():
            readline.set_completer(
                lambda text, n: [*(word for word in TYPED if word.startswith(text)), None][n])
            readline.parse_and_bind("tab: complete")
            path = os.path.expanduser(HISTORY)
            open(path, "a").close()
            readline.read_history_file(path)
            history = path
    try:
        while (line := input("rubewola> ").strip()) != "quit":
            yield line
    except EOFError:
        pass
    finally:
        if history:
            with suppress(OSError):  # What was added is committed all the same.
                readline.write_history_file(history)


def answer(store: Store, line: str) -> str:
    """What a line at the prompt is answered:

    find QUERY   the newest 20 documents that satisfy it, and how many do:
                 find from:ada date:2010 (backup OR restore) NOT test
                 find "full backup" subject:"disk is full" from:ad* restor*
    show N       the text of document N
    add TEXT     adds a document
    delete N     deletes document N
    commit       writes what is new to the disk
    count        how many documents live, and the next number
    merge        puts one segment in the place of all, without what was deleted
    tidy         puts one segment in the place of eight neighbours
    quit         commits, and ends the session, as the end of the input does; an interrupt just ends
    """
    command, _, rest = line.partition(" ")
    if command == "find":
        found = searching.answer(store, rest, tell)
        results = Results().read(store, searching.newest(found, SHOWN))
        lines = map(as_line, [*results.damaged, *results.newest(SHOWN)])
        return "\n".join([*lines, f"found {len(found.numbers)}"])
    if command == "show":
        return queries.plain(split(store.show(number(rest)))[0])
    return str(answer.__doc__) if command == "help" else store.ask(line)


class _Uncommitted:
    """What was added and deleted since the last commit."""

    def __init__(self) -> None:
        self.added = self.deleted = 0

    def note(self, reply: str) -> None:
        """Counts what a reply tells."""
        self.added += reply.startswith("added ")
        self.deleted += reply.startswith("deleted ")
        if reply == "committed":
            self.added = self.deleted = 0

    def __str__(self) -> str:
        told = {"added": self.added, "deleted": self.deleted}
        return " and ".join(f"{count} {what}" for what, count in told.items() if count)


def _answered(store: Store, line: str) -> str:
    """The answer to a line, or why there is none."""
    try:
        return answer(store, line)
    except UnicodeEncodeError:
        return "refused not text: the line is no UTF-8"
    except (Misused, Refused) as refused:
        return f"refused {refused}"


def shell(given: Given) -> int:
    """Answers a person's commands."""
    print("`help` names the commands, `quit` ends the session.")
    uncommitted = _Uncommitted()
    try:
        with opened(given.stores[0]) as store:
            for line in filter(None, _lines()):
                told = _answered(store, line)
                uncommitted.note(told)
                print(told)
            commits.commit(store)
            uncommitted.note("committed")
    finally:
        if str(uncommitted):
            tell(f"not committed, and so lost: {uncommitted} documents")
    return 0
