"""Searching an archive, and what is told of its documents."""

from __future__ import annotations

from array import array
from collections.abc import Callable, Iterable, Iterator
from datetime import date
from itertools import chain
from typing import NamedTuple

from rubewola import Damaged, QueryRefused, queries, results
from rubewola.sources import portions
from rubewola.store import DAMAGED, shown
from rubewola.words import has_word

from .fleet import Fleet

SHOWN_AT_ONCE = 4_096


class Found(NamedTuple):
    """How many documents satisfy a query, and the last of their numbers, rising."""

    count: int
    numbers: list[int]


def _found(fleet: Fleet, query: str, limit: int) -> Found:
    answers = fleet.ask_each({shard: ("find", query, limit, shard.most)
                              for shard in fleet.archive.shards})
    lists = [shard.numbers(array("I", data)) for shard, (_, data) in answers.items()]
    numbers = sorted(chain.from_iterable(lists))  # Sorting merges lists that rise.
    return Found(sum(count for count, _ in answers.values()), numbers[max(len(numbers) - limit, 0):])


def find(fleet: Fleet, typed: str, limit: int, tell: Callable[[str], None]) -> Found:
    """What satisfies a query with fields: the count of all, and the last `limit` numbers. It is
    read once, so that it means the same in each shard. `tell` is given what it does not mean."""
    query = queries.read(typed, lambda name: _found(fleet, has_word(name), 0).count > 0,
                         date.today())
    try:
        found = _found(fleet, query.text, limit)
    except QueryRefused as refusal:
        if refusal.place is None:
            raise
        raise queries.refused(refusal.reason, query.typed, query.place(refusal.place)) from None
    for note in query.notes:
        tell(queries.pointed(note.text, query.typed, note.place))
    return found


def replies(fleet: Fleet, numbers: Iterable[int]) -> dict[int, str]:
    """The replies of documents, but for those that are not there."""
    wanted = fleet.by_shard(numbers)
    told = fleet.ask_each({shard: ("show", local) for shard, local in wanted.items()})
    return {number: reply for shard, some in told.items()
            for number, reply in zip(shard.numbers(wanted[shard]), some) if reply}


def lines(fleet: Fleet, numbers: Iterable[int], form: str, damaged: list[str]) -> Iterator[str]:
    """A line for each document, read from the shards so many at once. Which ones are `damaged` is
    noted there."""
    for some in portions(numbers, SHOWN_AT_ONCE):
        there = replies(fleet, some)
        for number in filter(there.__contains__, some):
            if there[number] == DAMAGED:
                damaged.append(f"{number}: {why_damaged(fleet, number)}")
            else:
                yield results.FORMATS[form](results.parsed(shown(there[number]), number))


def why_damaged(fleet: Fleet, number: int) -> str:
    """What is told of a document that cannot be read."""
    return f"{fleet.archive.place(number)[0].name}: {Damaged('damaged')}"
