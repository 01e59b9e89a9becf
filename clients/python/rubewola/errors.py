"""What is told that is no result: errors, and lines on standard error."""

from __future__ import annotations

import os
import sys

LITTLE = 1_048_576  # Bytes: a disk with no more has no room for a commit.

# What the shorter reasons mean.
HINTS = {"damaged": "some byte is another one than was written: the guide tells what to do",
         "bad length": "the file is no store", "missing": "there is nothing at this path",
         "disk": "the system refused to read or to write the store's file",
         "in use": "another program has the store", "shorter": "it has more units",
         "not a store": "the file has no store; where its making was broken off, remove it",
         "read only": "this session only searches and shows",
         "busy": "replies to what was asked before are still to be read",
         "closed": "the session has ended",
         "reopen": "a write to the disk failed before: end this session, and see after the disk",
         "numbers used up": "the store has given its last number: load what comes into another",
         "buffer full": "`commit`, and add again",
         "too many segments": "`tidy` makes one of eight, `merge` one of all",
         "segment too large": "what it would make has more than 1 GiB"}


class StoreError(Exception):
    """What came in place of an answer; `reason` has the program's words."""

    def __init__(self, reason: str) -> None:
        super().__init__(f"{reason} ({HINTS[reason]})" if reason in HINTS else reason)
        self.reason, self.path = reason, ""

    def of(self, path: str) -> StoreError:
        """The same, of the store at a path; where the system refused it, with the cause."""
        if not self.path:
            cause = _cause(path) if self.reason == "disk" else ""
            self.path, self.args = path, (f"{path}: {cause or self}",)
        return self


class Failed(StoreError):
    """The program ended, or made no store."""


class InUse(Failed):
    """Another program has the store."""

    def __init__(self) -> None:
        super().__init__("in use")


class Overtaken(StoreError):
    """Another program has loaded the same meanwhile: the load is to be run again."""


class Refused(StoreError):
    """A command was refused, and changed no document."""


class NoSuchDocument(Refused):
    """No live document has the number."""


class Damaged(Refused):
    """What is asked for has another byte than was written."""


class BufferFull(Refused):
    """Too much is uncommitted: `commit`, then add again."""


class TooManySegments(Refused):
    """The store has as many segments as it may: `tidy` or `merge`, then commit again."""


class Full(Refused):
    """No free run of units is long enough: `need` units are wanted, `largest` are there."""

    def __init__(self, reason: str) -> None:
        super().__init__(reason)
        self.need, self.largest = numbers_in(reason)
        self.args = (f"full: {self.need:,} units in a row are wanted, {self.largest:,} are free; "
                     "`rubewola grow` gives a store more",)


class QueryRefused(Refused):
    """The query has a fault, at the byte `place` of it (None: as a whole)."""

    def __init__(self, reason: str) -> None:
        super().__init__(reason)
        self.place: int | None = next(iter(numbers_in(reason)), None)


# The exceptions by the words that their reasons begin with.
REFUSALS = {"no such document": NoSuchDocument, "damaged": Damaged, "buffer full": BufferFull,
            "full": Full, "too many segments": TooManySegments, "query": QueryRefused, "": Refused}


def numbers_in(told: str) -> list[int]:
    """The numbers of what the program prints."""
    return [int(word) for word in told.split() if word.isdecimal()]


def _cause(path: str) -> str:
    """Why the system refused to write to a store, if it tells."""
    try:
        told = os.statvfs(path)
    except OSError as error:
        return str(error.strerror)
    if told.f_bavail * told.f_frsize < LITTLE:
        return "No space left on the disk: what was committed stays; make room, and run it again"
    if told.f_flag & os.ST_RDONLY:
        return "Read-only file system"
    return ""


class InputRefused(Exception):
    """What was named is not what the loader reads."""


class Misused(Exception):
    """The command line asks nothing that is known."""


def tell(text: str) -> None:
    """Says something that is no result, if there is where."""
    if sys.stderr:
        begin = "\r\x1b[K" if sys.stderr.isatty() else ""  # A bar may stand in the line.
        print(f"{begin}rubewola: {text}", file=sys.stderr)


def waits() -> None:
    """Says that a store is waited for."""
    tell("the store is in use; waiting")
