"""Filling a store from mails, logs and journals, and the commands that do.

A batch of items is decoded first; then the store is opened, the batch added and committed, and the
store closed, so that others have it in between.
"""

from __future__ import annotations

import os
import sys
import time
from collections.abc import Callable, Iterable, Iterator
from concurrent.futures import BrokenExecutor
from contextlib import closing, contextmanager, suppress
from itertools import islice
from typing import Any, NamedTuple, Union

from . import documents, searching
from .commits import add, commit, grow, grown, units_of
from .decoding import in_order, processors
from .errors import Failed, Full, NoSuchDocument, StoreError, tell, waits
from .jsonlines import Journals, JsonLines
from .logs import Logs
from .mailboxes import Mailboxes
from .maildirs import Maildirs
from .sources import Entry
from .store import LAST_TRY, MOST_UNITS, Store, make
from .terminal import Progress

TYPE_CHECKING = False
if TYPE_CHECKING:
    from .commands import Given

BATCH_DOCUMENTS, BATCH_BYTES = 4_096, 16_777_216  # A commit comes after so many.
FIRST_UNITS = 524_288  # Of a new store at least: 256 MiB.
WAIT = 60  # Seconds for which a store that another program has is waited for.
NAMED = 5  # Files that could not be read, and mails with such ones, by their names.
MOST_JOBS = 256

SOURCES = {"load-mbox": Mailboxes, "load-maildir": Maildirs, "load-log": Logs,
           "load-json": JsonLines, "load-journal": Journals}
Source = Union[Mailboxes, Maildirs, Logs, JsonLines, Journals]


class Loaded(NamedTuple):
    """What a load did: documents that were added, of which some were cut, some are stored by their
    heads since they could not be read or took too long, and some took the place of another;
    documents that were deleted; files that were passed over, or the rest of them; and mails with an
    attached file whose text was wanted and is not there."""

    documents: int = 0
    cut: int = 0
    unreadable: int = 0
    slow: int = 0
    moved: int = 0
    pruned: int = 0
    passed: int = 0
    unfiltered: int = 0

    def __str__(self) -> str:
        told = {"cut": self.cut, "unreadable": self.unreadable, "slow": self.slow,
                "moved": self.moved, "pruned": self.pruned, "not readable": self.passed,
                "not filtered": self.unfiltered}
        more = ", ".join(f"{count} {what}" for what, count in told.items() if count)
        return f"{self.documents} documents" + (f" ({more})" if more else "")


class Shared:
    """A store that other programs have in between. Once one of them has changed it, `changed`."""

    def __init__(self, path: str) -> None:
        self._path, self._left, self.changed, self._told = path, None, False, False
        self._units = 0

    def _tell_of_waiting(self) -> None:
        if not self._told:
            waits()
        self._told = True

    @contextmanager
    def session(self) -> Iterator[Store]:
        """The store, open."""
        with Store(self._path, WAIT, self._tell_of_waiting) as store:
            counts, self._units = store.count(), units_of(self._path)
            self.changed |= self._left not in (None, counts)
            yield store
            self._left = store.count()

    def committed(self, done: Callable[[Store], Any]) -> Any:
        """What a function gives that ends with a commit. Where the store is full, the store grows,
        and what was not committed is done again."""
        while True:
            try:
                with self.session() as store:
                    return done(store)
            except Full as full:
                if units := grow(self._path, self._units, full, WAIT, self._tell_of_waiting):
                    tell(grown(self._path, units))


def _batches(chunks: Iterable[list[Entry]]) -> Iterator[list[Entry]]:
    """Whole chunks, as many at once as a commit takes."""
    batch, size = [], 0
    for chunk in chunks:
        more = sum(len(entry.data) for entry in chunk)
        if batch and (len(batch) + len(chunk) > BATCH_DOCUMENTS or size + more > BATCH_BYTES):
            yield batch
            batch, size = [], 0
        batch, size = batch + chunk, size + more
    if batch:
        yield batch


def _add(store: Store, entries: list[Entry]) -> Loaded:
    """Adds entries and commits them, and so what they take the place of is deleted."""
    for number in filter(None, (entry.replaces for entry in entries)):
        with suppress(NoSuchDocument):  # Another program has deleted it.
            store.delete(number)
    added = add(store, [entry.data for entry in entries])
    return Loaded(added, sum(entry.cut for entry in entries),
                  sum(entry.unreadable for entry in entries), sum(entry.slow for entry in entries),
                  sum(1 for entry in entries if entry.replaces),
                  unfiltered=sum(1 for entry in entries if entry.unfiltered))


def _make(path: str, room: int) -> None:
    """Makes a store with eight times the bytes that are to be read. Its file is sparse: what is
    never written takes no room."""
    try:
        make(path, max(FIRST_UNITS, min(MOST_UNITS, room // 64)))
    except Failed as failed:
        if failed.reason != "exists":
            raise
        _wait_until_made(path)


def _wait_until_made(path: str) -> None:
    """Waits for another loader, which is making the store."""
    ends = time.monotonic() + LAST_TRY
    while True:
        try:
            Store(path, WAIT).close()
            return
        except Failed:
            if time.monotonic() > ends:
                raise
            time.sleep(0.01)


def _refuse_earlier(store: Store, source: Source) -> None:
    """Refuses a store whose documents an earlier client wrote: they have no names."""
    if isinstance(source, Logs):
        return  # A log may go on in one.
    if searching.has_earlier(store):
        raise StoreError(f"{store.path} was filled by an earlier client, whose documents have no "
                         "names: load all into a new store")


def load(path: str, source: Source, with_parts: bool = True, jobs: int = 0,
         prune: bool = False) -> Loaded:
    """Loads what the store at the path lacks of the source; makes the store where there is none.
    What cannot be read is passed over, and told by `source.passed`. With `prune`, of a source of
    maildirs, it deletes the mails that are no more."""
    lost = [one.fault for one in source.inputs if one.fault and not one.is_read]
    if source.passed + lost and source.readable == len(lost):
        source.passed, source.readable = source.passed + lost, 0
        return Loaded(passed=len(source.passed))
    if not os.path.exists(path):
        _make(path, source.room)
    shared, done = Shared(path), Loaded()
    with shared.session() as store:
        _refuse_earlier(store, source)
        source.begin(store)
    progress = Progress(source)
    tasks = progress.noted(source.tasks(shared.session, with_parts))
    decoded = in_order(tasks, jobs or processors())
    with closing(decoded), closing(progress.drawn(decoded)) as chunks:
        for batch in _batches(chunks):
            progress.committed(done.documents)
            batch = _readable(source, batch)
            added = shared.committed(lambda store, batch=batch: _add(store, (
                source.still_lacking(store, batch) if shared.changed else batch)))
            done = Loaded(*map(sum, zip(done, added)))
    if prune:
        done = done._replace(pruned=shared.committed(lambda store: _pruned(store, source)))
    source.passed.extend(one.fault for one in source.inputs if one.fault)
    return done._replace(passed=len(source.passed))


def _pruned(store: Store, source: Source) -> int:
    """Deletes the mails that are no more, and gives how many they were."""
    pruned = source.prune(store)
    commit(store)
    return pruned


def _readable(source: Source, batch: list[Entry]) -> list[Entry]:
    """The entries that could be read; the source is told of the others, and of the first few whose
    attached files were not."""
    failed = (f"not filtered: {entry.unfiltered}" for entry in batch if entry.unfiltered)
    source.notes.extend(islice(failed, max(NAMED - len(source.notes), 0)))
    passed = [entry.passed for entry in batch if entry.passed]
    source.passed.extend(passed)
    source.readable -= len(passed)
    return [entry for entry in batch if not entry.passed]


def carry_out(given: Given) -> int:
    """Loads what a command line names, once or as long as it is followed."""
    if "follow" in given.options:
        from . import following
        return following.follow(given)
    begin = time.monotonic()
    source, loaded = once(given, given.words)
    for note in notes_of(source):
        tell(note)
    if "prune" in given.options and source.passed:
        tell("nothing was pruned, since not all could be read")
    tell_of(loaded, begin)
    return 2 if source.passed and not source.readable else 0


def once(given: Given, words: list[str]) -> tuple[Source, Loaded]:
    """Loads what some words name, as a command line wants it; gives what was read and done."""
    options = given.options
    source = SOURCES[given.command.name](*words)
    try:
        with documents.choosing(_extras(options)):
            loaded = load(given.stores[0], source, "no_parts" not in options,
                          min(options.get("jobs", 0), MOST_JOBS), "prune" in options)
    except BrokenExecutor as error:
        tell(str(error))
        sys.stdout.flush()
        os._exit(2)  # What waits for the process that was ended would wait for ever.
    return source, loaded


def notes_of(source: Source) -> list[str]:
    """What a reader should know of what was read."""
    return [*source.notes, *_not_read(source.passed)]


def tell_of(loaded: Loaded, begin: float) -> None:
    """Says what was loaded since a moment of the clock."""
    if sys.stderr:
        print(f"loaded {loaded} in {time.monotonic() - begin:.1f} s", file=sys.stderr)


def _extras(options: dict[str, Any]) -> documents.Extras:
    """What the options of a load choose."""
    filters = None
    if "filters" in options:
        from . import config
        filters = config.read().filters
    return documents.Extras("no_accents" not in options, filters)


def _not_read(told: list[str]) -> list[str]:
    """Why files could not be read, of the first few of them."""
    more = [f"and {len(told) - NAMED:,} more could not be read"] if len(told) > NAMED else []
    return [f"not read: {one}" for one in told[:NAMED]] + more
