"""What decodes the batches of a session: a process that has `rubewola`'s limits for a document."""

from __future__ import annotations

import pickle
from concurrent.futures import Future, ThreadPoolExecutor
from itertools import chain
from multiprocessing.util import Finalize

from rubewola.decoding import Decoders
from rubewola.sources import Entry

# No fork: the worker has threads, and open sessions.
START = "spawn"


class Decoder:
    """Batches that are decoded one after the other, and the last of them: what is asked for again
    is decoded once. The process begins with the first batch."""

    def __init__(self) -> None:
        self._thread, self._decoders = ThreadPoolExecutor(1), list[Decoders]()
        # A worker waits for its processes as it ends, and calls this before.
        Finalize(self, _end_all, (self._thread, self._decoders), exitpriority=0)
        self._last: tuple[bytes, Future[list[Entry]]] = (b"", Future())

    def begun(self, packed: bytes) -> Future[list[Entry]]:
        """What will have the entries that packed tasks give."""
        if self._last[0] != packed:
            self._last = packed, self._thread.submit(_decoded, packed, self._decoders)
        return self._last[1]

    def forget(self) -> None:
        """Holds the last batch no longer."""
        self._last = b"", Future()

    def end(self) -> None:
        """Ends the process, also in the midst of a batch."""
        self.forget()
        _end(self._decoders)


def _end(kept: list[Decoders]) -> None:
    while kept:
        kept.pop().end()


def _end_all(thread: ThreadPoolExecutor, kept: list[Decoders]) -> None:
    """Ends the process, and lets no batch begin another."""
    thread.shutdown(wait=False, cancel_futures=True)
    _end(kept)


def _decoded(packed: bytes, kept: list[Decoders]) -> list[Entry]:
    """What packed tasks give, by the process that is kept, or by another."""
    tasks = pickle.loads(packed)
    decoders = kept[0] if kept else Decoders(1, START)
    kept[:] = [decoders]
    try:
        return [*chain.from_iterable(decoders.in_order(tasks))]
    except BaseException:
        _end(kept)
        raise
