"""Loads that go on: what comes into logs, journals and maildirs is loaded as it comes.

Each second it is looked whether a file or a folder has changed. After a load that took longer the
next one waits for longer, too, so that time is left to others.
"""

from __future__ import annotations

import os
import select
import sys
import tempfile
import time

from . import loading
from .errors import InUse, InputRefused, Misused, Overtaken, tell
from .files import STANDARD_INPUT
from .jsonlines import LONGEST_OBJECT
from .places import FOLDERS

TYPE_CHECKING = False
if TYPE_CHECKING:
    from typing import Any

    from .commands import Given

EACH, SHARE, LONGEST = 1.0, 4, 10.0  # Seconds between two looks; times that a load took; at most.
AT_ONCE = 16_777_216  # Bytes of standard input that are loaded without waiting for more.


class _Follower:
    """A command line that is carried out again and again."""

    def __init__(self, given: Given) -> None:
        self._given, self._told, self._is_first = given, set(), True

    def load(self, words: list[str]) -> bool:
        """Loads what is new, and answers whether that is done; else it is to be tried again. What
        was told before is not told again."""
        begin = time.monotonic()
        try:
            source, loaded = loading.once(self._given, words)
        except (InUse, Overtaken) as error:
            self._tell(f"{error}; it is tried again")
            return False
        except (InputRefused, OSError) as error:
            if self._is_first:
                raise
            self._tell(str(error))  # A log may be gone for a moment, as it is rotated.
            return isinstance(error, InputRefused)
        for note in loading.notes_of(source):
            self._tell(note)
        if self._is_first or loaded.documents or loaded.pruned:
            loading.tell_of(loaded, begin)
        self._is_first = False
        return True

    def _tell(self, note: str) -> None:
        if note not in self._told:
            tell(note)
            self._told.add(note)


def follow(given: Given) -> int:
    """Loads what a command line names until it is interrupted, or standard input ends."""
    follower = _Follower(given)
    if STANDARD_INPUT in given.words:
        if given.words != [STANDARD_INPUT] or given.command.name != "load-journal":
            raise Misused("--follow wants files; `-` alone, and of a journal alone, is followed")
        return _follow_input(follower)
    seen: Any = None
    while True:
        now, begin = _signs(given.words), time.monotonic()
        if now != seen:
            seen = now if follower.load(given.words) else None
        time.sleep(min(max(EACH, SHARE * (time.monotonic() - begin)), LONGEST))


def _signs(words: list[str]) -> list[Any]:
    """What changes where a file or a folder does."""
    return [_sign(path) for word in words for path in ([word] if not os.path.isdir(word)
                                                       else _folders(word))]


def _folders(top: str) -> list[str]:
    """A folder and those in it, but for what stands in `cur` and `new`."""
    found, waiting, seen = [], [top], set()
    while waiting:
        folder = waiting.pop()
        try:
            told = os.stat(folder)
        except OSError:
            continue
        if (told.st_dev, told.st_ino) in seen:
            continue
        seen.add((told.st_dev, told.st_ino))
        found.append(folder)
        if os.path.basename(folder) not in FOLDERS:
            try:
                with os.scandir(folder) as entries:
                    waiting.extend(sorted(one.path for one in entries if one.is_dir()))
            except OSError:
                pass  # The load tells of it.
    return found


def _sign(path: str) -> tuple[Any, ...]:
    try:
        told = os.stat(path)
    except OSError as error:
        return path, error.errno
    return path, told.st_ino, told.st_size, told.st_mtime_ns


def _follow_input(follower: _Follower) -> int:
    """Loads whole lines of standard input as they come, and at its end the rest."""
    if sys.stdin is None:
        raise Misused("standard input is closed")
    held, first, has_more = _Held(), 0.0, True
    poll = select.poll()
    poll.register(0, select.POLLIN)
    while has_more:
        if poll.poll(EACH * 1_000):
            piece = os.read(0, 1_048_576)
            has_more = bool(piece)
            first = first if held.size else time.monotonic()
            held.put(piece)
        has_lines = held.has_end or not has_more and held.size
        if has_lines and (not has_more or held.size > AT_ONCE or time.monotonic() - first > EACH):
            with tempfile.NamedTemporaryFile(prefix="rubewola-") as file:
                file.writelines(held.taken(not has_more))
                file.flush()
                while not follower.load([file.name]):
                    time.sleep(EACH)
            first = time.monotonic()
    return 0


class _Held:
    """What came of standard input and waits to be loaded. Of a line that is too long the rest is
    passed over."""

    def __init__(self) -> None:
        self._lines: list[bytes] = []
        self._rest: list[bytes] = []  # Of the last line, which has no end yet.
        self._size_of_rest = self.size = 0

    @property
    def has_end(self) -> bool:
        """Whether it has a whole line."""
        return bool(self._lines)

    def put(self, piece: bytes) -> None:
        """Takes what comes next."""
        end = piece.rfind(b"\n") + 1
        if end:
            self._lines += [*self._rest, piece[:end]]
            self._rest, self._size_of_rest = [], 0
            self.size += end
        if self._size_of_rest <= LONGEST_OBJECT:
            self._rest.append(piece[end:])
            self._size_of_rest += len(piece) - end
            self.size += len(piece) - end

    def taken(self, is_all: bool) -> list[bytes]:
        """Takes the whole lines away, or all that there is."""
        lines, self._lines = self._lines, []
        if is_all:
            lines, self._rest, self._size_of_rest = [*lines, *self._rest], [], 0
        self.size = self._size_of_rest
        return lines
