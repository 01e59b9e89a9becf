"""Files that are loaded: packed ones, standard input, and what is refused as no text."""

from __future__ import annotations

import bz2
import errno
import gzip
import lzma
import os
import shutil
import stat
import sys
import tempfile
import zlib
from collections.abc import Callable, Iterable, Iterator
from contextlib import contextmanager
from datetime import date
from functools import lru_cache
from typing import Any, BinaryIO

from .errors import InputRefused

STANDARD_INPUT = "-"
UNPACKED = 10  # Times the bytes of a packed file that come out of it, or fewer.

_PACKED = {b"\x1f\x8b": gzip.open, b"BZh": bz2.open, b"\xfd7zXZ\0": lzma.open}
# What begins files that are no text, and what to do about them.
_NO_TEXT = {
    b"\x28\xb5\x2f\xfd": "packed by zstd: unpack it, as by `zstd -dc`, and load `-`",
    b"LPKSHHRH": "a journal's own file: load what `journalctl -o json` prints of it",
    b"PK\x03\x04": "a zip archive", b"7z\xbc\xaf\x27\x1c": "a 7z archive",
    b"SQLite format 3": "a database", b"\x7fELF": "a program", b"%PDF": "a PDF",
    b"\xff\xfe": "UTF-16: make it UTF-8, as by `iconv`",
    b"\xfe\xff": "UTF-16: make it UTF-8, as by `iconv`",
}
_TAR_AT, _TAR = 257, b"ustar"
_STORE_AT, _STORE = 1_024, b"PKSRCH"
_LOOKED_AT = 65_536
# Bytes that texts have few of. Of NUL a log that was cut in place may have many.
_ODD = bytes([*range(1, 8), *range(14, 27), *range(28, 32), 127])


@lru_cache(maxsize=None)
def _held(path: str) -> BinaryIO:
    """A file with all that standard input or a pipe gives, which can be read once."""
    if path == STANDARD_INPUT and sys.stdin is None:
        raise OSError(errno.EBADF, "standard input is closed")
    held = tempfile.TemporaryFile()
    with open(sys.stdin.fileno() if path == STANDARD_INPUT else path, "rb",
              closefd=path != STANDARD_INPUT) as stream:
        shutil.copyfileobj(stream, held)
    held.flush()
    return held


class Stream:
    """The bytes of a file, unpacked. Where no more of it can be read it ends, and the file's
    `fault` says why."""

    def __init__(self, source: Input, stream: Any) -> None:
        self._source, self._stream = source, stream

    def _tried(self, read: Callable[[int], bytes], size: int) -> bytes:
        try:
            data = read(size)
            self._source.is_read |= bool(data)
            return data
        except (EOFError, zlib.error, lzma.LZMAError, OSError) as error:
            why = (error.strerror if isinstance(error, OSError) else None) or (
                f"its end is missing, or it is damaged ({error})")
            self._source.fault = f"{self._source.path}: {why}"
            return b""

    def read(self, size: int) -> bytes:
        """So many bytes, or what there is."""
        pieces, left = [], size
        while left and (data := self._tried(self._stream.read1, left)):
            pieces.append(data)
            left -= len(data)
        return b"".join(pieces)

    def line(self, longest: int) -> bytes:
        """A line, or so many bytes of it."""
        return self._tried(self._stream.readline, longest)

    def lines(self, longest: int) -> Iterator[tuple[bytes, int]]:
        """Lines, each with how many bytes it has. Of a longer one the beginning is given, and its
        end, if it has one."""
        while line := self.line(longest):
            size, last = len(line), line
            while not last.endswith(b"\n") and (more := self.line(longest)):
                size, last = size + len(more), more
            ends = last.endswith(b"\n") and size > len(line)
            yield (line + b"\n" if ends else line), size


class Input:
    """A file that is loaded, by its name; with its `fault`, once no more of it can be read, and
    whether any of it could be."""

    def __init__(self, path: str) -> None:
        self.path, self.fault, self.is_read = path, "", False
        self._is_file = path != STANDARD_INPUT and stat.S_ISREG(os.stat(path).st_mode)
        if os.path.isdir(path) and path != STANDARD_INPUT:
            raise IsADirectoryError(errno.EISDIR, "is a folder", path)
        with self._raw() as raw:
            told, head = os.fstat(raw.fileno()), raw.read(8)
        self.size, self.written = told.st_size, date.fromtimestamp(told.st_mtime)
        self._open = next((opener for magic, opener in _PACKED.items() if head.startswith(magic)),
                          None)

    @property
    def grows(self) -> bool:
        """Whether more may come at the end: not to a packed file, to standard input or a pipe."""
        return self._is_file and not self._open

    @property
    def name(self) -> str:
        """The file's whole path; that of standard input is `-`."""
        return self.path if self.path == STANDARD_INPUT else os.path.abspath(self.path)

    def _raw(self) -> BinaryIO:
        if self._is_file:
            return open(self.path, "rb")
        held = _held(self.path)
        held.seek(0)
        return os.fdopen(os.dup(held.fileno()), "rb")

    @property
    def room(self) -> int:
        """About how many bytes come out of it."""
        return self.size * (UNPACKED if self._open else 1)

    @contextmanager
    def opened(self) -> Iterator[tuple[Stream, BinaryIO]]:
        """The file's bytes, unpacked, and the file as it lies there, whose place tells how much is
        read."""
        with self._raw() as raw:
            if not self._open:
                yield Stream(self, raw), raw
                return
            with self._open(raw) as unpacked:
                yield Stream(self, unpacked), raw

    def refuse_what_is_no_text(self) -> None:
        """Refuses archives, programs and the like."""
        with self.opened() as (stream, _):
            head = stream.read(_LOOKED_AT)
        told = next((told for magic, told in _NO_TEXT.items() if head.startswith(magic)), None)
        if head[_TAR_AT:].startswith(_TAR):
            told = "an archive: unpack it first"
        if head[_STORE_AT:].startswith(_STORE):
            told = "a store"
        odd = len(head) - len(head.translate(None, _ODD))
        if not told and odd * 50 > len(head):
            told = "no text"
        if told:
            raise InputRefused(f"{self.path}: {told}")


def inputs(paths: Iterable[str]) -> tuple[list[Input], list[str]]:
    """The files of these names, each once; and why others cannot be read."""
    found: dict[str, Input] = {}
    passed: list[str] = []
    for path in paths:
        try:
            one = Input(path)
        except OSError as error:
            passed.append(f"{path}: {error.strerror or error}")
        else:
            found[one.name] = one
    return [*found.values()], passed
