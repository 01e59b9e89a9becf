"""A shard's session, which lives as an actor in a worker that has the shard's disk."""

from __future__ import annotations

import asyncio
import os
from array import array
from bisect import bisect_right
from collections.abc import Callable, Coroutine
from concurrent.futures import Future, ThreadPoolExecutor, wait
from contextlib import suppress
from functools import wraps
from typing import Any, NamedTuple

from rubewola import Counts, Failed, Full, InUse, NoSuchDocument, QueryRefused, Store, StoreError
from rubewola.commits import commit, grow, units_of
from rubewola.loading import BATCH_BYTES, BATCH_DOCUMENTS
from rubewola.sources import Entry, portions
from rubewola.store import make
from rubewola.words import NAMING

from .decoder import Decoder

ALL = f"NOT {NAMING}none"  # All documents: no loader writes this word, and no text holds it.
WAIT = 1  # Seconds for a store that another program has, before it is asked for again.


class NoAnswer(Exception):
    """Why a session gives no answer."""


class Taken(NoAnswer):
    """Another program has the store, and may let it go: that of a worker that was lost does so at
    the end of its command."""


class Added(NamedTuple):
    """What a load left: the next number; of the documents that it added some were cut, some could
    not be read, and some took too long; the units to which the store grew, each time."""

    next: int
    cut: int
    unreadable: int
    slow: int
    grown: tuple[int, ...] = ()


def _in_turn(method: Callable[..., Any]) -> Callable[..., Coroutine[Any, Any, Any]]:
    """A method that is carried out in the session's own thread, behind those that came before."""
    @wraps(method)
    async def queued(session: Session, *given: Any) -> Any:
        loop = asyncio.get_running_loop()
        return await loop.run_in_executor(session.thread, _answer, method, session, *given)
    return queued


def _answer(method: Callable[..., Any], *given: Any) -> Any:
    try:
        return method(*given)
    except QueryRefused:
        raise
    except InUse as error:
        raise Taken(str(error)) from None
    except Exception as error:  # Whatever it is, it is told in a word that can be sent.
        raise NoAnswer(str(error) or type(error).__name__) from None


def _with_store(method: Callable[..., Any]) -> Callable[..., Coroutine[Any, Any, Any]]:
    """A method that is given the open store, and once more where its program has ended."""
    @wraps(method)
    def carried_out(session: Session, *given: Any) -> Any:
        store = session.opened()
        try:
            return session.carry_out(method, store, *given)
        except StoreError as error:
            if not isinstance(error, Failed) and error.reason != "reopen":
                raise
        return session.carry_out(method, session.opened(), *given)
    return _in_turn(carried_out)


def _growing(method: Callable[..., Any]) -> Callable[..., Any]:
    """A method that commits: where the store is full it grows, and the method is carried out again
    over what is committed."""
    @wraps(method)
    def carried_out(session: Session, store: Store, *given: Any) -> Any:
        while True:
            try:
                return method(session, store, *given)
            except Full as full:
                store = session.larger(full)
    return carried_out


class Session:
    """One store, opened at its first use.

    Its methods are carried out one after the other, in a thread of its own, so the sessions of one
    worker go side by side; what is loaded is decoded before. What one changes it commits, so no
    other sees what is uncommitted; and each can be called again where its answer did not come.
    """

    def __init__(self, path: str, identity: str) -> None:
        self._path, self._identity, self._store = path, identity, None
        self._grown: list[int] = []
        self.thread, self._decoder = ThreadPoolExecutor(1), Decoder()

    def opened(self) -> Store:
        """The store, open."""
        if self._store is None:
            self._judge(os.path.exists(self._path))
            self._store = Store(self._path, WAIT)
        return self._store

    def carry_out(self, method: Callable[..., Any], *given: Any) -> Any:
        """What a method gives. Where it fails the store is closed, and what is uncommitted goes."""
        try:
            return method(self, *given)
        except QueryRefused:
            raise
        except BaseException:
            self._end()
            raise

    def larger(self, full: Full) -> Store:
        """The store, open, with more units, as it was committed."""
        had = units_of(self._path)
        self._end()
        if units := grow(self._path, had, full, WAIT):
            self._grown.append(units)
        return self.opened()

    def _judge(self, has_store: bool) -> None:
        """Refuses a store that was made as another shard."""
        try:
            with open(f"{self._path}.shard", encoding="utf-8") as file:
                told = file.read().strip()
        except FileNotFoundError:
            if has_store:
                raise StoreError(f"no file {self._path}.shard tells which shard this is") from None
            return
        if told != self._identity:
            raise StoreError(f"the store is shard {told}, and shard {self._identity} is asked")

    def _end(self) -> None:
        store, self._store = self._store, None
        if store is not None:
            store.close()

    def __del__(self) -> None:
        # Else the program would go on and keep the store until this process ends.
        self._end()

    @_in_turn
    def create(self, units: int) -> str:
        """Makes the store, where it is not there, and beside it the file that tells its shard."""
        has_store = os.path.exists(self._path)
        self._judge(has_store)
        if has_store:
            return "was there"
        with open(f"{self._path}.shard.new", "w", encoding="utf-8") as file:
            print(self._identity, file=file, flush=True)
            os.fsync(file.fileno())
        os.replace(file.name, f"{self._path}.shard")
        make(self._path, units)
        return "created"

    @_with_store
    def counts(self, store: Store, most: int) -> Counts:
        """How many of the first `most` documents live, and the number of the next."""
        live, following = store.count()
        if following - 1 > most:
            live = bisect_right(store.find(ALL), most)
        return Counts(live, following)

    @_with_store
    def last(self, store: Store, most: int) -> tuple[int, int, str]:
        """The number of the next, and of the first `most` documents the last that lives, with its
        text; 0 where none lives."""
        following = store.count().next
        for number in range(min(following - 1, most), 0, -1):
            with suppress(NoSuchDocument):
                return following, number, store.show(number)
        return following, 0, ""

    async def load(self, at: int, count: int, packed: bytes, patience: float) -> Added | None:
        """Adds and commits the documents of packed tasks, `count` from the number `at` on, as far as
        the store lacks them. So what is sent twice is added once. Where they are not decoded in so
        many seconds there is no answer yet: it is to be called again."""
        decoded = self._decoder.begun(packed)
        await asyncio.to_thread(wait, [decoded], patience)
        return await self._add(at, count, decoded) if decoded.done() else None

    @_with_store
    @_growing
    def _add(self, store: Store, at: int, count: int, decoded: Future[list[Entry]]) -> Added:
        self._decoder.forget()
        following, entries = store.count().next, decoded.result()
        if at > following or len(entries) != count:
            raise StoreError(f"{len(entries)} documents from {at} on come where {following} is the "
                             f"next, and {count} are told")
        lacking = entries[following - at:]
        for batch in portions(lacking, BATCH_DOCUMENTS, _size, BATCH_BYTES):
            for _ in store.add_all(entry.data for entry in batch):
                pass
            commit(store)
        grown, self._grown = self._grown, []
        return Added(store.count().next, sum(entry.cut for entry in lacking),
                     sum(entry.unreadable for entry in lacking),
                     sum(entry.slow for entry in lacking), tuple(grown))

    @_with_store
    def find(self, store: Store, query: str, limit: int, most: int) -> tuple[int, bytes]:
        """How many of the first `most` documents satisfy a query, and the last `limit` of their
        numbers, 4 bytes each."""
        numbers = store.find(query)
        end = bisect_right(numbers, most)
        return end, array("I", numbers[max(end - limit, 0):end]).tobytes()

    @_with_store
    def show(self, store: Store, numbers: list[int]) -> list[str]:
        """The replies of documents; an empty one of one that is not there."""
        return [*store.replies(numbers)]

    @_with_store
    @_growing
    def delete(self, store: Store, numbers: list[int]) -> list[bool]:
        """Deletes documents and commits that, and tells which of them were there."""
        were_there = [*map(bool, store.replies(numbers))]
        for number, was_there in zip(numbers, were_there):
            if was_there:
                store.delete(number)
        commit(store)
        return were_there

    @_with_store
    def ask(self, store: Store, command: str) -> str:
        """The reply to `commit`, `tidy` or `merge`."""
        return store.ask(command)

    @_in_turn
    def check(self) -> str:
        """What the program tells of the whole store, which is closed for it."""
        self._end()
        self._judge(os.path.exists(self._path))
        found = Store.check(self._path, WAIT)
        return f"ok {found.documents} documents next {found.next} segments {found.segments}"

    @_in_turn
    def close(self) -> str:
        """Ends the session with the store; the next call begins one."""
        self._end()
        self._decoder.end()
        return "closed"


def _size(entry: Entry) -> int:
    return len(entry.data)
