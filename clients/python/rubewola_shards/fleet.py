"""All shards of an archive, asked side by side."""

from __future__ import annotations

import time
from collections.abc import Iterable
from concurrent.futures import ThreadPoolExecutor
from contextlib import AbstractContextManager, suppress
from typing import Any

from distributed import Actor, Client, Future, Security
from rubewola import QueryRefused

from .archive import Archive, Shard
from .faults import Missing
from .session import NoAnswer, Session, Taken

PAUSE = 0.05  # Seconds before a shard is asked again whose worker is lost.
TURN = 1  # Seconds of a call, each time, until the scheduler is asked whether its worker is lost.
KNOWN = 5  # Seconds in which a scheduler tells which workers it has.
# Seconds for an answer: to what is asked, to a batch of a load with its worker's return, and to
# what goes through a whole store, where a worker is there in the time of a batch.
ASKED, LOADED, WHOLE = 10, 60, 86_400
WAITS = {"load": LOADED, "ask": WHOLE, "check": WHOLE}
LOST = "its worker is lost"


def security(archive: Archive) -> Security | None:
    """The certificates that an archive names."""
    tls = archive.tls
    return Security(tls_ca_file=tls["ca"], tls_client_cert=tls["cert"], tls_client_key=tls["key"],
                    require_encryption=True) if tls else None


class Fleet(AbstractContextManager["Fleet"]):
    """A connection to the scheduler of an archive, and an actor for each of its shards.

    An actor's key is its shard's, so all clients share one session with a store. Where its worker
    is lost, the next call makes it anew on a worker that has the disk. One process has one of these
    at a time, since an actor belongs to the client that was made last.
    """

    def __init__(self, archive: Archive, wait: float = 0, partial: bool = False) -> None:
        """Connects. Each shard is to answer in `wait` seconds, or as many as its call takes; where
        `partial` answers are wanted, those that do not are noted in `missing`."""
        self.archive, self.partial, self.missing = archive, partial, dict[str, str]()
        self._wait, self._is_open = wait, True
        try:
            self._client = Client(archive.scheduler, security=security(archive),
                                  timeout=wait or ASKED, direct_to_workers=True)
        except OSError as error:
            raise self._all_missing(f"{self._no_scheduler}: {error}") from error
        self._futures = {shard: self._submitted(shard) for shard in archive.shards}
        self._actors: dict[Shard, tuple[str, Any]] = {}
        self._threads = ThreadPoolExecutor(len(self._futures))

    def __exit__(self, *_: object) -> None:
        """Ends the connection. A session ends when nobody is connected to it."""
        self._is_open = False
        self._threads.shutdown(wait=False, cancel_futures=True)
        self._client.close()

    @property
    def patience(self) -> float:
        """Seconds in which a batch is decoded, or said to be at it: well within those for an
        answer."""
        return (self._wait or LOADED) / 4

    def _submitted(self, shard: Shard) -> Future:
        return self._client.submit(Session, shard.path, shard.identity, actor=True, pure=False,
                                   resources={shard.disk: 1}, key=_key(shard))

    def _actor(self, shard: Shard, ends: float) -> tuple[str, Any]:
        """The address of the worker that has a shard's session, and the actor."""
        future, placed = self._futures[shard], self._actors.get(shard)
        if placed and future.status == "finished":
            return placed  # To ask where it is would be one more way there and back.
        sync, scheduler, key = self._client.sync, self._client.scheduler, future.key
        if future.status in ("error", "lost"):
            # `future.retry` notes `pending` behind the answer, when the session may be there again.
            sync(scheduler.retry, keys=[key], client=self._client.id, callback_timeout=_left(ends))
        if future.status == "cancelled":  # The scheduler is another.
            future = self._futures[shard] = self._submitted(shard)
        if error := future.exception(_left(ends)):
            raise error
        # `future.result` would connect to the worker, and not in turns.
        workers = sync(scheduler.who_has, keys=[key], callback_timeout=_left(ends))[key]
        if not workers:
            raise LookupError(LOST)
        placed = self._actors[shard] = workers[0], Actor(Session, workers[0], key)
        return placed

    def _answer(self, call: Any, worker: str, ends: float) -> Any:
        """A call's answer, waited for in turns: Dask tries to reach a lost worker as long as a
        scheduler. Where this one does not tell that it is lost, the call may be at work."""
        while _left(ends) > TURN:
            with suppress(TimeoutError):
                return call.result(TURN)
            with suppress(OSError):
                if not self._client.nthreads([worker], callback_timeout=TURN):
                    raise LookupError(LOST)
        return call.result(_left(ends))

    def ask(self, shard: Shard, method: str, *given: Any) -> Any:
        """A shard's answer. A call whose worker is lost is made again."""
        wait, reason = self._wait or WAITS.get(method, ASKED), ""
        ends = time.monotonic() + wait
        while self._is_open and time.monotonic() < ends:
            waited = min(wait, LOADED)
            try:
                worker, actor = self._actor(shard, min(ends, time.monotonic() + waited))
                waited = wait
                return self._answer(getattr(actor, method)(*given), worker, ends)
            except QueryRefused:
                raise
            except Taken as error:
                reason = str(error)
            except NoAnswer as error:
                raise Missing({shard.name: str(error)}) from None
            except TimeoutError:
                reason = reason or f"no answer in {waited:g} s"
                break
            except Exception as error:  # The worker is lost, or the scheduler.
                self._actors.pop(shard, None)
                reason = str(error) or type(error).__name__
                time.sleep(PAUSE)
        raise Missing({shard.name: self._cause(shard) or reason})

    def _cause(self, shard: Shard) -> str:
        """What the scheduler knows of a shard that gives no answer."""
        sync, scheduler = self._client.sync, self._client.scheduler
        try:
            workers = sync(scheduler.identity, callback_timeout=KNOWN)["workers"].values()
        except Exception:  # Whatever it is, the scheduler did not tell.
            return self._no_scheduler
        has_worker = any(shard.disk in worker["resources"] for worker in workers)
        return "" if has_worker else f"no worker has {shard.disk}"

    def ask_each(self, calls: dict[Shard, tuple[Any, ...]]) -> dict[Shard, Any]:
        """The answers to a call of each shard, in the order of the calls."""
        asked = {shard: self._threads.submit(self.ask, shard, *call)
                 for shard, call in calls.items()}
        answers, reasons = {}, {}
        for shard, answer in asked.items():
            try:
                answers[shard] = answer.result()
            except Missing as missing:
                reasons |= missing.reasons
        if reasons and not self.partial:
            raise Missing(reasons)
        self.missing |= reasons
        return answers

    def ask_all(self, method: str, *given: Any) -> dict[Shard, Any]:
        """The answers of all shards to the same call."""
        return self.ask_each({shard: (method, *given) for shard in self.archive.shards})

    def by_shard(self, numbers: Iterable[int]) -> dict[Shard, list[int]]:
        """The numbers that documents have in their shards."""
        wanted: dict[Shard, list[int]] = {}
        for number in numbers:
            shard, local = self.archive.place(number)
            wanted.setdefault(shard, []).append(local)
        return wanted

    def keep_open(self) -> None:
        """Lets the sessions live on when nobody is connected."""
        self.let_go()
        self._told(self._client.publish_dataset, [*self._futures.values()], name=self._published)

    def let_go(self) -> None:
        """Lets the sessions end with their last client."""
        with suppress(KeyError):
            self._told(self._client.unpublish_dataset, self._published)

    def _told(self, call: Any, *given: Any, **named: Any) -> None:
        """Tells the scheduler something, which is to confirm it in the time of an answer."""
        try:
            call(*given, **named, callback_timeout=self._wait or ASKED)
        except TimeoutError:
            raise self._all_missing(self._no_scheduler) from None

    @property
    def _no_scheduler(self) -> str:
        return f"no scheduler at {self.archive.scheduler}"

    def _all_missing(self, reason: str) -> Missing:
        return Missing({shard.name: reason for shard in self.archive.shards})

    @property
    def _published(self) -> str:
        return _key(self.archive.shards[0])


def _key(shard: Shard) -> str:
    return f"{shard.disk}:{shard.path}: {shard.identity}"


def _left(ends: float) -> float:
    return max(ends - time.monotonic(), 0.001)
