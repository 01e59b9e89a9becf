"""What loaders share: entries to be added, and sources whose items are known by their names."""

from __future__ import annotations

import os
from collections.abc import Callable, Iterable, Iterator, Sequence
from typing import Any, NamedTuple

from .commits import COMMIT
from .errors import Refused
from .files import Input
from .layout import split
from .store import Store
from .words import SIGN

ASKED_AT_ONCE = 4_096
CHUNK_BYTES, CHUNK_ITEMS = 262_144, 2_048  # What a process decodes at once.


class Entry(NamedTuple):
    """A document to be added: its bytes; a query that finds it where it is there already; the
    number of the document whose place it takes, or 0; and what its reader should be told. One that
    could not be read at all is `passed`, with why, and not added. Of one with an attached file of
    which no text was read `unfiltered` tells why."""

    data: bytes
    query: str
    replaces: int = 0
    cut: bool = False
    unreadable: bool = False
    slow: bool = False
    passed: str = ""
    unfiltered: str = ""


# A function that gives entries, with what it is given. It may run in another process.
Task = tuple[Callable[..., list[Entry]], Any, bool]


def has_kind(store: Store, kind: str) -> bool:
    """Whether a store has documents of a kind. The last document tells it mostly, and then those
    that end a commit, which are few; so a large store takes no longer than a small one."""
    try:
        if split(store.show(store.count().next - 1))[1].get("kind") == kind:
            return True
    except Refused:
        pass  # There is none, or it is deleted.
    return store.has(f"{SIGN}{kind} {COMMIT}") or store.has(SIGN + kind)


def portions(items: Iterable[Any], most: int, size_of: Callable[[Any], int] = lambda _: 0,
             most_bytes: int = CHUNK_BYTES) -> Iterator[list[Any]]:
    """Items in lists, of so many each and of so many bytes, if one alone has not more."""
    held, size = [], 0
    for item in items:
        if held and (len(held) >= most or size + size_of(item) > most_bytes):
            yield held
            held, size = [], 0
        held.append(item)
        size += size_of(item)
    if held:
        yield held


class Named:
    """A source whose items are known by their names, in any order. Of its `size` bytes, `read` are
    read, and about `room` come out of them. So many files are `readable`; `passed` tells why others
    are not."""

    kind: str
    read_chunk: Callable[[list[Any], bool], list[Entry]]
    size = room = read = readable = 0
    inputs: Sequence[Input] = ()

    def __init__(self) -> None:
        self._asks, self._seen = False, set()
        self.passed: list[str] = []
        self.notes: list[str] = []

    def is_new(self, known: str) -> bool:
        """Whether a digest is met for the first time."""
        key = bytes.fromhex(known)
        is_new = key not in self._seen
        self._seen.add(key)
        return is_new

    @staticmethod
    def sizes_before(inputs: Iterable[Input]) -> Iterator[int]:
        """For each file the bytes of those before it."""
        before = 0
        for one in inputs:
            yield before
            before += one.size

    def begin(self, store: Store) -> None:
        """Sees whether the store may know any of the items."""
        self._asks = has_kind(store, self.kind)

    def items(self) -> Iterator[Any]:
        """All items."""
        raise NotImplementedError

    def lacking(self, store: Store | None, items: list[Any]) -> list[Any]:
        """The items that are to be decoded; without a store none is known yet."""
        raise NotImplementedError

    def found(self, store: Store | None, queries: list[str]) -> list[list[int]]:
        """For each query the documents of this kind that it finds, many asked for at once."""
        if not store:
            return [[] for _ in queries]
        return list(store.find_all(f"{query} {SIGN}{self.kind}" for query in queries))

    def tasks(self, session: Callable[[], Any], with_parts: bool) -> Iterator[Task]:
        """What is to be done for the items that the store lacks."""
        items = iter(self.items())
        for asked in portions(items, ASKED_AT_ONCE, _size, CHUNK_BYTES * 64):
            if self._asks:
                with session() as store:
                    wanted = self.lacking(store, asked)
            else:
                wanted = self.lacking(None, asked)
            for chunk in portions(wanted, CHUNK_ITEMS, _size):
                yield self.read_chunk, chunk, with_parts

    def still_lacking(self, store: Store, entries: list[Entry]) -> list[Entry]:
        """The entries that nobody has added since."""
        found = self.found(store, [entry.query for entry in entries])
        return [entry for entry, numbers in zip(entries, found) if not numbers]


def _size(item: object) -> int:
    """The bytes of an item as it is handed on; a mail's file counts as a mail of the usual size."""
    return len(item) if isinstance(item, bytes) else 2_048


def bytes_of(path: str) -> int:
    """The bytes of a mail's file."""
    try:
        return os.path.getsize(path)
    except OSError:  # The mail is gone.
        return 0
