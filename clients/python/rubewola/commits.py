"""Commits, and the segments that they leave.

Each commit of new documents leaves a segment, and a tidy makes one of eight neighbours. So behind
each eighth commit of the loaders comes one, which makes a segment of eight commits, behind each
eighth of these one more, which makes one of 64, and so on. Where they are fewer than 16 of a size
they are left: so there are at most 15 of each, and a text is written anew at most once for each
size. The number of commits stays in the store: a document of each has it as a word.

A store that is full gets twice its units.
"""

from __future__ import annotations

import os
from collections.abc import Callable
from contextlib import suppress

from .documents import MOST_BYTES
from .errors import Failed, Full, NoSuchDocument, Refused, StoreError, TooManySegments
from .layout import split
from .store import MOST_UNITS, UNIT, Store
from .words import SIGN, named

MERGED = 8  # Segments of which a tidy makes one.
COMMIT = SIGN + "commit"  # A word of one document of each commit of loaders.
_DIGITS = 16  # No number of a commit has so many; another program may write any.


def commit(store: Store) -> None:
    """Commits, with room made where there was none, as far as a merge makes any."""
    try:
        store.commit()
    except TooManySegments:
        store.tidy()
        commit(store)
    except Full as full:
        try:
            store.merge()
        except Refused as refused:
            if _lacks_room(refused):
                raise full from None
            raise
        store.commit()


def _lacks_room(refused: Refused) -> bool:
    """Whether a merge or a tidy was refused since what it makes has no room."""
    return isinstance(refused, Full) or refused.reason == "segment too large"


def units_of(path: str) -> int:
    """The units that the file of a store has: those of the store, if its making longer was not
    broken off."""
    return os.path.getsize(path) // UNIT


def grow(path: str, had: int, full: Full | None = None, wait: float = 0,
         waiting: Callable[[], None] = lambda: None) -> int:
    """Gives a store that no program has open twice the units that its file `had`, and so many more
    that what was refused as full fits; gives the units that it has now, or 0 where another program
    has grown it since. Where a growth was broken off, that one is ended."""
    units = units_of(path)
    if _has_grown(path, units, wait, waiting):
        return units
    units = units_of(path)
    if units > had:
        return 0
    if units == MOST_UNITS:
        raise StoreError(f"{path} has {units:,} units, and no store may have more") from full
    while units - had < (full.need if full else 1) and units < MOST_UNITS:
        units = min(2 * units, MOST_UNITS)
    return units if _has_grown(path, units, wait, waiting) else 0


def _has_grown(path: str, units: int, wait: float, waiting: Callable[[], None]) -> bool:
    """Whether a store had fewer units than so many, and has these now."""
    try:
        return Store.grow(path, units, wait, waiting)
    except Failed as failed:
        if failed.reason != "shorter":  # Another program has grown it since.
            raise
    return False


def grown(path: str, units: int) -> str:
    """What is told of a store that was full."""
    return f"{path} was full: grown to {units:,} units ({units * UNIT:,} bytes)"


def add(store: Store, texts: list[bytes]) -> int:
    """Adds documents, and commits what is uncommitted, with a tidy where it is time; gives how many
    were added."""
    number = _number(store) + 1
    added = sum(1 for _ in store.add_all(_marked(texts, number)))
    commit(store)
    if added:
        _tidy(store, number)
    return added


def _number(store: Store) -> int:
    """How many commits of loaders are behind the documents of a store. The last document tells it
    mostly; else the last one does that ended a commit."""
    with suppress(NoSuchDocument):
        if number := _told_number(store.show(store.count().next - 1)):
            return number
    return max(map(_told_number, store.show_all(store.find(COMMIT)[-1:])), default=0)


def _told_number(stored: str) -> int:
    """The number of the commit that a document ended, or 0."""
    told = split(stored)[1].get("commit", "")
    return int(told) if told.isdecimal() and len(told) < _DIGITS else 0


def _marked(texts: list[bytes], number: int) -> list[bytes]:
    """The texts, of which the last that has room says in which commit it comes."""
    mark = "".join(f" {word}" for word in (COMMIT, *named("commit", str(number)))).encode()
    fitting = (at for at in reversed(range(len(texts))) if len(texts[at]) + len(mark) <= MOST_BYTES)
    at = next(fitting, None)
    return texts if at is None else [*texts[:at], texts[at] + mark, *texts[at + 1:]]


def _tidy(store: Store, number: int) -> None:
    """Tidies behind a commit of this number as often as it is time. Where there is no room for it,
    as many segments stay as there are."""
    while number % MERGED == 0 and number >= 2 * MERGED:
        try:
            store.tidy()
        except Refused as refused:
            if _lacks_room(refused):
                return
            raise
        number = number // MERGED - 1  # How many segments of the next size there were.
