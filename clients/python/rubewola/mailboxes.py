"""Mails from mailbox files."""

from __future__ import annotations

import re
from collections.abc import Iterator

from .errors import InputRefused
from .files import Stream, inputs
from .mails import LONGEST_MAIL, entry, query_of
from .sources import Entry, Named
from .store import Store

_READ, _LOOKED_AT, _SUM_DIGITS = 4_194_304, 1_024, 16
_BEGIN = b"From "
_LONGEST_LINE = 65_536  # Bytes of a line that begins a mail.
_BEHIND = 4  # Bytes before a line `From ` that tell whether it stands behind an empty line.
_TIME, _YEAR = re.compile(rb" \d\d:\d\d(?::\d\d)? "), re.compile(rb"\d{4}")
_YEAR_AND_TIME = re.compile(rb" \d{4} \d\d:\d\d")


def _is_timed(data: bytes, at: int, end: int) -> bool:
    """Whether a line that begins with `From ` has a sender and a time, as `23:30:00 2010`."""
    sender = at + len(_BEGIN)
    if data[sender:sender + 1].isspace():
        return False
    if time := _TIME.search(data, sender, end):
        if _YEAR.search(data, time.end(), end):
            return True
    return bool(_YEAR_AND_TIME.search(data, sender, end))


def _is_behind_empty_line(data: bytes, at: int) -> bool:
    return data[at - 1:at] == b"\n" or data[at - 2:at] == b"\n\r"


def _bare(data: bytes) -> bytes:
    """A mail without its line `From ` and the empty line that parts it from the next."""
    raw = data.partition(b"\n")[2]
    if raw.endswith(b"\n\r\n") or raw == b"\r\n":
        return raw[:-2]
    return raw[:-1] if raw.endswith(b"\n\n") or raw == b"\n" else raw


class _Box:
    """A mailbox as it is read: `data` begins with the mail that is read, or, once that is too long,
    goes on in its midst; then `held` is its beginning."""

    def __init__(self, stream: Stream) -> None:
        self._stream, self._size = stream, _READ
        self.data, self.start, self._searched = stream.read(_READ).lstrip(b"\r\n"), 0, 0
        self._held = b""
        first = self.data.find(b"\n")
        first = len(self.data) if first < 0 else first
        self._is_timed = self.data.startswith(_BEGIN) and _is_timed(self.data, 0, first)

    def mails(self) -> Iterator[bytes]:
        """The mails."""
        while True:
            at = self.data.find(b"\n" + _BEGIN, self._searched)
            last = at + _LONGEST_LINE
            end = self.data.find(b"\n", at + 1, last) if at >= 0 else -1
            if at >= 0 and end < 0 and len(self.data) >= last:
                self._searched = last
            elif end < 0:  # The line `From ` may not be read whole yet.
                if not self._more(at if at >= 0 else len(self.data) - len(_BEGIN)):
                    break
            elif self._begins(at, end):
                yield self._ended(at + 1)
                self.start = self._searched = at + 1
            else:
                self._searched = end
        if self._held or self.data[self.start:]:
            yield self._ended(len(self.data))

    def _begins(self, at: int, end: int) -> bool:
        """Whether a mail begins with the line behind a place."""
        if self._is_timed:
            return _is_timed(self.data, at + 1, end)
        return _is_behind_empty_line(self.data, at)

    def _ended(self, end: int) -> bytes:
        """The mail that ends at a place."""
        raw, self._held = self._held or self.data[self.start:end], b""
        return _bare(raw)[:LONGEST_MAIL]

    def _more(self, searched: int) -> bool:
        """Reads on; whether there is more. Of a mail that is too long the beginning is kept."""
        more = self._stream.read(self._size)
        if len(self.data) - self.start > LONGEST_MAIL + _LOOKED_AT and not self._held:
            self._held = self.data[self.start:self.start + LONGEST_MAIL + _LOOKED_AT]
        kept = max(searched - _BEHIND, self.start) if self._held else self.start
        self._searched = max(searched, self.start) - kept
        self.data, self.start = self.data[kept:] + more, 0
        self._size = max(self._size, min(len(self.data), LONGEST_MAIL))
        return bool(more)


def boxed(stream: Stream) -> Iterator[bytes]:
    """The mails of a mailbox. A line `From ` begins one: where the first of the box has a time,
    each that has one, else each behind an empty line."""
    return _Box(stream).mails()


def _read(mails: list[bytes], with_parts: bool) -> list[Entry]:
    return [entry(Mailboxes.kind, raw, [], query_of(raw), with_parts) for raw in mails]


class Mailboxes(Named):
    """Mailbox files. Each mail that the store lacks is added, wherever it stands; it is known by
    its message id and its checksum."""

    kind = "mbox"
    read_chunk = staticmethod(_read)

    def __init__(self, *paths: str) -> None:
        super().__init__()
        self.inputs, self.passed = inputs(paths)
        self.size = sum(one.size for one in self.inputs)
        self.room = sum(one.room for one in self.inputs)
        self.readable = len(self.inputs)
        for one in self.inputs:
            with one.opened() as (stream, _):
                head = stream.read(_LOOKED_AT).lstrip(b"\r\n")
            if head and not head.startswith(_BEGIN):
                raise InputRefused(f"no mail in {one.path}: a mailbox begins with `From `")

    def items(self) -> Iterator[bytes]:
        """All mails, one box after the other."""
        for one, before in zip(self.inputs, self.sizes_before(self.inputs)):
            with one.opened() as (stream, raw):
                for item in boxed(stream):
                    self.read = before + raw.tell()
                    yield item

    def lacking(self, store: Store | None, mails: list[bytes]) -> list[bytes]:
        """The mails that neither the store has nor this load before them."""
        known = [query_of(raw) for raw in mails]
        found = zip(mails, known, self.found(store, known))
        return [raw for raw, query, numbers in found
                if self.is_new(query[-_SUM_DIGITS:]) and not numbers]
