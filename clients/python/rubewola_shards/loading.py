"""Loading an input into the shards of an archive, side by side."""

from __future__ import annotations

import pickle
from collections import deque
from collections.abc import Iterator
from concurrent.futures import Future, ThreadPoolExecutor
from itertools import islice
from typing import Any, NamedTuple

from rubewola import loading
from rubewola.commits import grown
from rubewola.decoding import Decoders

from .archive import Archive, Shard
from .decoder import START
from .faults import Missing, OtherInput, tell
from .fleet import Fleet
from .inputs import Lines, Mails, batches, known_by, tasks_of
from .session import Added

ON_THEIR_WAY = 2  # Batches of a shard: one that it takes, and the next.


class Loaded(NamedTuple):
    """What a load did: what it added, up to which number all documents are committed now, and the
    shards that went missing."""

    added: loading.Loaded
    complete: int
    missing: dict[str, str]


def load(fleet: Fleet, source: Lines | Mails, with_parts: bool = True) -> Loaded:
    """Loads what the shards lack of a source. Each goes on behind its own last document, so a load
    that was stopped anywhere, run again, comes to the same."""
    archive = fleet.archive
    states = fleet.ask_each({shard: ("last", shard.most) for shard in archive.shards})
    nexts = {shard: min(following, shard.most + 1) for shard, (following, *_) in states.items()}
    _judge(source, {shard.number(local): (shard, text)
                    for shard, (_, local, text) in states.items() if local})
    before, feed = sum(nexts.values()), _Feed(fleet, nexts)
    try:
        for shard, *batch in _lacking(archive, source, nexts, with_parts):
            feed.put(shard, *batch)
            if feed.missing:
                break
    except BaseException:
        feed.stop()
        raise
    finally:
        feed.end()
    added = loading.Loaded(sum(nexts.values()) - before, feed.cut, feed.unreadable, feed.slow)
    return Loaded(added, archive.complete(nexts), feed.missing)


def _judge(source: Lines | Mails, last: dict[int, tuple[Shard, str]]) -> None:
    """Compares the last documents of shards, by their numbers, with the input."""
    items, at = source.items(), 0
    with Decoders(1, START) as decoders:
        for number in sorted(last):
            shard, text = last[number]
            item = next(islice(items, number - at - 1, None), None)
            if item is None:
                raise OtherInput(f"it ends before document {number}, which {shard.name} has")
            # As it would be stored: of a mail that is read from its box again the same checksum.
            (entry,), = decoders.in_order(tasks_of(source, [item], False))
            if known_by(entry.data.decode().replace("\v", "\n")) != known_by(text):
                raise OtherInput(f"document {number}, {shard.name}'s last, is another")
            at = number


def _lacking(archive: Archive, source: Lines | Mails, nexts: dict[Shard, int], with_parts: bool
             ) -> Iterator[tuple[Shard, int, int, bytes]]:
    """What shards lack: for each batch the shard, the number there of the first document, how many
    they are, and their tasks as one string of bytes. Of a list Dask would send each item by
    itself."""
    for number, items in batches(archive, source, archive.complete(nexts) + 1):
        shard, local = archive.place(number)
        if local + len(items) > nexts[shard]:
            tasks = tasks_of(source, items, with_parts)
            yield shard, local, len(items), pickle.dumps(tasks, pickle.HIGHEST_PROTOCOL)


class _Feed:
    """Batches on their way to the shards, to each one after the other. `nexts` follows what each
    has committed, and `missing` tells which went missing, and why."""

    def __init__(self, fleet: Fleet, nexts: dict[Shard, int]) -> None:
        self._fleet, self._nexts, self.missing = fleet, nexts, dict[str, str]()
        self._sends = True
        self._threads = {shard: ThreadPoolExecutor(1) for shard in nexts}
        self._waiting = {shard: deque[Future[Any]]() for shard in nexts}
        self.cut = self.unreadable = self.slow = 0

    def put(self, shard: Shard, *batch: object) -> None:
        """Sends a batch, and waits where too many of its shard are on their way."""
        self._waiting[shard].append(self._threads[shard].submit(self._send, shard, *batch))
        self._wait_for(shard, ON_THEIR_WAY - 1)

    def stop(self) -> None:
        """Sends nothing more."""
        self._sends = False

    def end(self) -> None:
        """Waits for all that is on its way."""
        for shard, thread in self._threads.items():
            self._wait_for(shard, 0)
            thread.shutdown()

    def _send(self, shard: Shard, *batch: object) -> Added | None:
        """Sends a batch, again as long as it is still decoded."""
        # Where a shard is missing, what comes behind would wait for nothing.
        while self._sends and shard.name not in self.missing:
            try:
                if added := self._fleet.ask(shard, "load", *batch, self._fleet.patience):
                    return added
            except Missing as error:
                self.missing.update(error.reasons)
        return None

    def _wait_for(self, shard: Shard, most: int) -> None:
        while len(self._waiting[shard]) > most:
            if added := self._waiting[shard].popleft().result():
                self._nexts[shard] = added.next
                for units in added.grown:
                    tell(grown(shard.name, units))
                self.cut, self.unreadable = self.cut + added.cut, self.unreadable + added.unreadable
                self.slow += added.slow
