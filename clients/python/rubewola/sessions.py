"""Reading sessions of a store that stay open, so that many requests are answered side by side."""

from __future__ import annotations

import threading
import time
from contextlib import contextmanager

from .errors import InUse
from .store import Reader

TYPE_CHECKING = False
if TYPE_CHECKING:
    from collections.abc import Iterator

MOST = 4  # Sessions of a store at once.
TURN = 30  # Seconds for which a request waits for those before it.
IDLE = 60  # Seconds after which all but one of those that nobody uses are ended.


class Sessions:
    """Sessions with the store at a path. Whoever comes while all are used waits in a queue."""

    def __init__(self, path: str) -> None:
        self._path, self._free = path, list[tuple[Reader, float]]()
        self._room, self._one = threading.BoundedSemaphore(MOST), threading.Lock()

    @contextmanager
    def one(self) -> Iterator[Reader]:
        """A session for one request: one that is open, or else a new one."""
        if not self._room.acquire(timeout=TURN):
            raise InUse().of(self._path)
        try:
            reader = self._taken() or Reader(self._path, TURN)
            try:
                yield reader
            finally:
                self._put_back(reader)
        finally:
            self._room.release()

    def _taken(self) -> Reader | None:
        """The session that was used last, if one is open, and goes on with the file that stands at
        the path."""
        while True:
            with self._one:
                if not self._free:
                    return None
                reader, _ = self._free.pop()
            if reader.is_current:
                return reader
            reader.close()

    def _put_back(self, reader: Reader) -> None:
        """Keeps a session open. That of an older program would keep others from the store."""
        if reader.is_shared and reader.is_current:
            with self._one:
                self._free.append((reader, time.monotonic()))
        else:
            reader.close()

    def end_idle(self) -> None:
        """Ends the sessions that nobody has used for a while, but for the one used last."""
        late = time.monotonic() - IDLE
        with self._one:
            idle = [reader for reader, used in self._free[:-1] if used < late]
            self._free = [one for one in self._free if one[0] not in idle]
        for reader in idle:
            reader.close()
