"""Decoding side by side, in processes that have limits, so that no document holds up a load.

All that is read takes a time that grows with its bytes alone, as far as anybody knows. The limits
are for the rest: a document past them is stored by its head, and told as slow. Where it is a
library that takes the time, and heeds no signal, the system ends the process, which is one of those
that decode. In another one the document is stored by its head.
"""

from __future__ import annotations

import math
import multiprocessing
import os
import signal
import sys
import threading
import time
from collections import deque
from collections.abc import Callable, Iterable, Iterator
from concurrent.futures import BrokenExecutor, Future, ProcessPoolExecutor, TimeoutError
from contextlib import contextmanager, suppress
from itertools import chain, islice
from multiprocessing import active_children, connection
from multiprocessing.process import BaseProcess
from typing import Any

from . import documents
from .sources import CHUNK_BYTES, Entry, Task, bytes_of

SECONDS, BYTES_A_SECOND = 10.0, 1_000_000  # A document has ten seconds, and one for each million.
GRACE = 5  # Seconds behind these, after which a process that decodes is ended.
MEMORY = 1_073_741_824  # Bytes of a process that decodes, beyond what it has as it begins.
_TICK = 0.25
WATCHED = 1  # Seconds after which it is seen whether the processes are still there.
ENDED = "a process that decodes was ended: run it again"
_STARTING = threading.Lock()  # What processes are whose is seen by one thread at a time.
AHEAD, AHEAD_BYTES = 64, 134_217_728  # Chunks that are decoded while a batch is added.


class Slow(BaseException):
    """A document has taken its time. No reader of a part of it is to go on, so this is none of the
    errors that they know."""


class _Clock:
    """The time that the document has left which is decoded now, and the most memory in bytes; the
    document's place in its task, from 1 on, and where this is noted for the process that waits; the
    attempts that ended a process, by places and attempts; and whether this process may be ended."""

    left = most = float("inf")
    at, noted, harmful, is_ended = 0, None, frozenset(), False

    def tick(self, *_: object) -> None:
        """Takes time off, and looks at the memory."""
        self.left -= _TICK
        self.put_off()
        if self.left < 0 or self.most < float("inf") and _taken()[1] > self.most:
            self.left = float("inf")
            raise Slow

    def put_off(self) -> None:
        """Lets the system end this process once it has taken what the document has left, and more,
        and no tick has come."""
        if self.is_ended:
            import resource
            left = max(self.left, 0) if self.left < float("inf") else SECONDS
            ends, most = math.ceil(time.process_time() + left + GRACE), resource.getrlimit(
                resource.RLIMIT_CPU)[1]
            resource.setrlimit(resource.RLIMIT_CPU, (
                ends if most == resource.RLIM_INFINITY else min(ends, most), most))


def _taken() -> tuple[int, int]:
    """The bytes of this process: those that it has asked for, and those that it has."""
    with open("/proc/self/statm", encoding="ascii") as told:
        asked, has = (int(pages) * os.sysconf("SC_PAGE_SIZE") for pages in told.read().split()[:2])
    return asked, has


_CLOCK = _Clock()


def begin(size: int, attempt: int = 0) -> None:
    """Gives a document of so many bytes its time, for the first attempt to read it or for another.
    One that has ended a process is Slow at once."""
    _CLOCK.left = SECONDS + size / BYTES_A_SECOND
    if size > BYTES_A_SECOND:
        _CLOCK.put_off()
    _CLOCK.at += not attempt
    if _CLOCK.noted is not None:
        if (_CLOCK.at, attempt) in _CLOCK.harmful:
            raise Slow
        _CLOCK.noted[:] = _CLOCK.at, attempt


def end() -> None:
    """Ends the time of a document: what is done between two is none of theirs."""
    _CLOCK.left = float("inf")


@contextmanager
def timed() -> Iterator[None]:
    """Within it documents have their time: `begin` gives it to each. It is told by a signal, which
    only a process's first thread hears."""
    if threading.current_thread() is not threading.main_thread():
        yield
        return
    signal.signal(signal.SIGPROF, _CLOCK.tick)
    _CLOCK.left, _CLOCK.at = float("inf"), 0
    _CLOCK.put_off()
    signal.setitimer(signal.ITIMER_PROF, _TICK, _TICK)
    try:
        yield
    finally:
        # The clock stays where its signal is told: one may be on its way.
        signal.setitimer(signal.ITIMER_PROF, 0)
        _CLOCK.left = float("inf")


def limit_process(noted: Any = None, harmful: frozenset[tuple[int, int]] = frozenset()) -> None:
    """Lets this process, which decodes, have MEMORY more than it has, and be ended where a document
    takes too long. The attempts to read a document are `noted`, by its place and theirs; those
    `harmful` are not made."""
    _CLOCK.noted, _CLOCK.harmful = noted, harmful
    with suppress(ImportError, OSError, ValueError):  # Not every system tells.
        import resource
        resource.setrlimit(resource.RLIMIT_CORE, (0, resource.getrlimit(resource.RLIMIT_CORE)[1]))
        _CLOCK.is_ended = True
    _limit_memory()


def _limit_memory() -> tuple[int, int] | None:
    """Lets this process have MEMORY more than it has; gives the limits of before, or None where the
    system tells none. It refuses more, where it heeds that; so the clock looks, too."""
    with suppress(ImportError, OSError, ValueError):  # Not every system tells.
        import resource
        before, (asked, has) = resource.getrlimit(resource.RLIMIT_AS), _taken()
        most = asked + MEMORY
        if before[0] != resource.RLIM_INFINITY:
            most = min(most, before[0])
        resource.setrlimit(resource.RLIMIT_AS, (most, before[1]))
        _CLOCK.most = has + MEMORY
        return before
    return None


@contextmanager
def _limited() -> Iterator[None]:
    """Within it this process, which does not decode alone, has no more memory; as with the time,
    that is so in its first thread."""
    is_first = threading.current_thread() is threading.main_thread()
    before = _limit_memory() if is_first else None
    try:
        yield
    finally:
        if before:
            import resource
            _CLOCK.most = float("inf")
            resource.setrlimit(resource.RLIMIT_AS, before)


def _begin_decoding(own: documents.Extras, *limited: Any) -> None:
    """Lets a process that decodes have its limits, and end when the one that started it does,
    however that ends; what is chosen for the load holds in it."""
    documents.choose(own)
    limit_process(*limited)
    parent = multiprocessing.parent_process()

    def watch() -> None:
        connection.wait([parent.sentinel])
        os._exit(1)
    threading.Thread(target=watch, daemon=True).start()


@contextmanager
def _no_interrupt() -> Iterator[None]:
    """Keeps the terminal's interrupt for later, and for ever from processes that are started."""
    before = signal.pthread_sigmask(signal.SIG_BLOCK, {signal.SIGINT})
    try:
        yield
    finally:
        signal.pthread_sigmask(signal.SIG_SETMASK, before)


def processors() -> int:
    """How many processors this program may use."""
    with suppress(AttributeError):  # Not every system tells.
        return len(os.sched_getaffinity(0))
    return os.cpu_count() or 1


def in_order(tasks: Iterator[Task], jobs: int) -> Iterator[list[Entry]]:
    """What each task gives, in their order. They are done side by side, in processes that may be
    ended; a small one alone is done here, which is quicker."""
    first = list(islice(tasks, 2))
    if len(first) < 2 and all(_bytes_of(task) <= CHUNK_BYTES for task in first):
        for function, *given in first:
            with timed(), _limited():
                entries = function(*given)
            yield entries
        return
    with Decoders(jobs, "fork" if sys.platform == "linux" else None) as decoders:
        yield from decoders.in_order(chain(first, tasks))


class Decoders:
    """So many processes that decode, started by a method of `multiprocessing`. A fork is quick, and
    takes along what its process has: no store may be open, and no thread hold a lock."""

    def __init__(self, jobs: int, method: str | None, *limited: Any) -> None:
        self._jobs, self._method = jobs, method
        self._given, self._is_ended = (documents.chosen(), *limited), False
        self._begin()

    def _begin(self) -> None:
        context = multiprocessing.get_context(self._method)
        self._pool = ProcessPoolExecutor(self._jobs, context, _begin_decoding, self._given)
        self._own, self._is_killed = set[BaseProcess](), False

    def __enter__(self) -> Decoders:
        return self

    def __exit__(self, kind: type[BaseException] | None, *_: object) -> None:
        """Ends the processes; where something failed or was interrupted, at once."""
        if kind:
            self._kill()
        self._shut_down()

    def end(self) -> None:
        """Ends the processes at once, also in the midst of a task."""
        self._is_ended = True
        self._kill()
        self._shut_down()

    def _kill(self) -> None:
        self._is_killed = True
        for process in [*self._own]:
            process.kill()
        with suppress(AttributeError):  # A thread of the library reads, and would wait for ever.
            self._pool._result_queue._writer.close()

    def _shut_down(self) -> None:
        self._pool.shutdown(wait=not self._is_killed, cancel_futures=True)

    def _begin_anew(self) -> None:
        """Takes other processes, unless another thread has ended these."""
        if self._is_ended:
            raise BrokenExecutor(ENDED)
        self._kill()
        self._shut_down()
        self._begin()

    def in_order(self, tasks: Iterable[Task]) -> Iterator[list[Entry]]:
        """What each task gives, in their order."""
        waiting, held = deque(), deque()
        for task in tasks:
            waiting.append((task, self._begun(task)))
            held.append(_bytes_of(task))
            while len(waiting) > AHEAD or len(waiting) > 1 and sum(held) > AHEAD_BYTES:
                held.popleft()
                yield self._next(waiting)
        while waiting:
            yield self._next(waiting)

    def _begun(self, task: Task) -> Future[list[Any]]:
        """What will have what a task gives, or that a process was ended before."""
        with _STARTING, _no_interrupt():
            others = set(active_children())
            try:
                future = self._pool.submit(_columns, *task)
            except BrokenExecutor as error:
                future = Future()
                future.set_exception(error)
            self._own.update(set(active_children()) - others)
            self._let_read_alone()
        return future

    def _let_read_alone(self) -> None:
        """Leaves the end at which tasks are read to the processes, once all have begun: else the
        thread of the library that writes them would wait for ever where these are ended. Since
        3.11.5 the library sees to that. Later is too late: it may just close the same end."""
        if sys.version_info < (3, 11, 5) and len(self._own) == self._jobs:
            with suppress(AttributeError):
                self._pool._call_queue._reader.close()

    def _result(self, future: Future[list[Any]]) -> list[Entry]:
        """What a task gives. Where a process was ended, `BrokenExecutor` is raised: the library
        waits for ever where that was while it handed its result over, so now and then they are
        looked at."""
        while True:
            with suppress(TimeoutError):
                return [*map(Entry._make, zip(*future.result(WATCHED)))]
            if not all(process.is_alive() for process in [*self._own]):
                raise BrokenExecutor(ENDED)

    def _next(self, waiting: deque[tuple[Task, Future[list[Any]]]]) -> list[Entry]:
        """What the first of the tasks gives that wait. Where a process was ended, it is done alone,
        and those behind it are begun anew."""
        task, future = waiting.popleft()
        try:
            return self._result(future)
        except BrokenExecutor:
            pass
        self._begin_anew()
        entries = self._alone(task)
        kept = [(one, future if _is_done(future) else self._begun(one)) for one, future in waiting]
        waiting.clear()
        waiting.extend(kept)
        return entries

    def _alone(self, task: Task) -> list[Entry]:
        """What a task gives of which a document may have ended a process: in a process for it
        alone, and once more without each attempt that ends one."""
        noted, harmful = multiprocessing.RawArray("q", 2), set()
        while True:
            with Decoders(1, self._method, noted, frozenset(harmful)) as decoder:
                with suppress(BrokenExecutor):
                    return decoder._result(decoder._begun(task))
                decoder._kill()
            if self._is_ended or tuple(noted) in (*harmful, (0, 0)):
                raise BrokenExecutor(ENDED)
            harmful.add(tuple(noted))


def _is_done(future: Future[list[Any]]) -> bool:
    """Whether a task was done, and its process not ended."""
    return future.done() and not future.cancelled() and future.exception() is None


def _bytes_of(task: Task) -> int:
    """The bytes that are handed over with a task, or that it reads."""
    given = task[1] if isinstance(task[1], list) else [getattr(task[1], "lines", b"")]
    return sum(len(one) if isinstance(one, bytes) else bytes_of(one.path) for one in given)


def _columns(function: Callable[..., list[Entry]], *given: Any) -> list[tuple[Any, ...]]:
    """What a task gives, by columns, which are handed over twice as fast as entries."""
    with timed():
        return [*zip(*function(*given))]
