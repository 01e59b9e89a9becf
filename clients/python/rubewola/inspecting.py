"""What a store has, and whether each document is as it was loaded."""

from __future__ import annotations

import os
from collections import Counter
from collections.abc import Iterator

from .documents import OTHER, judged
from .errors import Refused
from .layout import DAY_DIGITS, KINDS
from .results import parsed, where
from .searching import SPANS, within
from .store import UNIT, Reader, shown
from .words import ABSENT, SIGN

_ALL = f"NOT {ABSENT}"


def facts(store: Reader) -> list[str]:
    """How many documents of which kinds a store has, and from which day to which."""
    counts = store.count()
    kinds = zip(KINDS, list(store.counts(SIGN + kind for kind in KINDS)))
    told = ", ".join(f"{count:,} {kind}" for kind, count in kinds if count)
    told = f" ({told})" if told else ""
    return [f"documents  {counts.live:,}{told}, next number {counts.next:,}",
            f"days       {' to '.join(_days(store)) or 'none'}"]


def _days(store: Reader) -> list[str]:
    """The first and the last day of documents, of those that a range may name."""
    return [f"{day[:4]}-{day[4:6]}-{day[6:]}" for day in (_edge(store, -1), _edge(store, 1)) if day]


def _edge(store: Reader, step: int) -> str:
    """The day of a document behind which none lies: going back the last, going on the first."""
    day, spans = "", list(SPANS[1:-1])
    while spans:
        day = next((span for span in spans[::step] if store.has(SIGN + span)), "")
        spans = within(day) if 0 < len(day) < DAY_DIGITS else []
    return day


def room(path: str) -> str:
    """The bytes of a store, and what its file takes of the disk."""
    told = os.stat(path)
    return f"room       {told.st_size:,} bytes, {told.st_blocks * UNIT:,} of them on the disk"


def _bytes_of(reply: str) -> bytes:
    """The bytes of a document, by the reply to a `show`."""
    pieces = reply.removeprefix("text ").split("\\\\")
    return "\\".join(piece.replace("\\n", "\n") for piece in pieces).encode()


def _replies(store: Reader, numbers: list[int]) -> Iterator[tuple[int, str]]:
    """The documents of these numbers, each with the reply to its `show`; an empty one where it is
    refused or is no text. Behind that few are asked for at once, and then more, for what was asked
    behind a refused one is asked again."""
    at, count = 0, len(numbers)
    while at < len(numbers):
        asked = numbers[at:at + count]
        try:
            for reply in store.ask_all(f"show {number}" for number in asked):
                yield numbers[at], reply
                at += 1
            count *= 2
        except (Refused, UnicodeDecodeError):
            yield numbers[at], ""
            at, count = at + 1, 1


class Compared(Counter):
    """How many documents are SOUND, OTHER or have NONE; and `told` of each other one, by its number
    and name."""

    def __init__(self, store: Reader) -> None:
        super().__init__()
        self.told: list[str] = []
        for number, reply in _replies(store, store.find(_ALL)):
            found = judged(_bytes_of(reply)) if reply else OTHER
            self[found] += 1
            if found is OTHER:
                self.told.append(f"{number}{_name_of(reply, number)}: {OTHER}")


def _name_of(reply: str, number: int) -> str:
    """What a mail is called, whatever its bytes."""
    name = where(parsed(shown(reply), number))
    return "" if name == str(number) else f" {name}"
