"""Lines from logs, from where an earlier load stopped, also when the log was rotated.

A file is known by what it begins with. Now and then a stored line has MARKS behind it: the digest
of its file's first line, how many bytes of the file are stored with it, their digest, and the
file's path. A later load goes on behind the most bytes that a file still begins with, by the newest
marks of which one fits.
"""

from __future__ import annotations

import glob
import os
import re
from collections.abc import Callable, Iterator
from contextlib import suppress
from datetime import date
from hashlib import blake2b
from typing import NamedTuple

from . import days, decoding, stamps
from .documents import MOST_BYTES, document
from .errors import NoSuchDocument, Overtaken
from .files import Input, Stream, inputs
from .layout import earlier, lines_words, split
from .sources import CHUNK_BYTES, CHUNK_ITEMS, Entry, Task, has_kind
from .store import Store
from .texts import decoded
from .words import asked, named

_LINE_END = b"\n"
LONGEST_LINE = MOST_BYTES  # Bytes of a line that are read.
FEW_MARKS = 16  # That are looked at first.
_DIGITS = 18  # Of the bytes of a file.


class Mark(NamedTuple):
    """What the store has of a file."""

    first: str
    size: int
    digest: str
    path: str

    def words(self) -> list[str]:
        """The words that say so."""
        return [*named("first", self.first), *named("read", f"{self.size}_{self.digest}"),
                *named("file", self.path)]


def _mark_of(stored: str, kind: str) -> Mark | None:
    known = split(stored)[1]
    size, _, told = known.get("read", "").partition("_")
    if not size.isdecimal() or len(size) > _DIGITS or "first" not in known or known["kind"] != kind:
        return None
    return Mark(known["first"], int(size), told, known.get("file", ""))


def _marks(store: Store, kind: str, word: str) -> Iterator[list[Mark]]:
    """The marks that a word finds, the newest first: some at a time, for the newest mostly tell
    enough, and a large log has many."""
    # With the word of the kind, which all lines have, the find would take longer.
    numbers, count = store.find(word)[::-1], FEW_MARKS
    while numbers:
        shown, numbers, count = numbers[:count], numbers[count:], count * 4
        yield [mark for one in list(store.show_all(shown)) if (mark := _mark_of(one, kind))]


class _Digests:
    """The digests of what a file begins with."""

    def __init__(self) -> None:
        self._state, self.size, self.is_line_end = blake2b(digest_size=8), 0, True

    def take(self, data: bytes) -> None:
        """Takes bytes that follow."""
        self._state.update(data)
        self.size += len(data)
        self.is_line_end = data.endswith(_LINE_END)

    @property
    def digest(self) -> str:
        """The digest of all that was taken."""
        return self._state.copy().hexdigest()


def _begins_with(source: Input, marks: list[Mark]) -> Mark | None:
    """Of the marks the one of the most bytes that a file begins with."""
    digests, found = _Digests(), None
    with source.opened() as (stream, _):
        for mark in sorted(set(marks), key=lambda mark: mark.size):
            while digests.size < mark.size:
                data = stream.read(min(mark.size - digests.size, CHUNK_BYTES))
                if not data:
                    return found
                digests.take(data)
            if digests.digest == mark.digest:
                found = mark
    return found


class _File:
    """A log that is loaded: its first line, if it has a whole one, and where loading begins."""

    def __init__(self, source: Input) -> None:
        self.source, self.begin, self.note = source, 0, ""
        self.first = _first_of(source)


def _first_of(source: Input) -> str:
    """The digest of a file's first line, however long that is; nothing where it has no end yet."""
    digests, last = _Digests(), b""
    with source.opened() as (stream, _):
        while not last.endswith(_LINE_END) and (more := stream.line(LONGEST_LINE)):
            last = more
            digests.take(last)
    whole = last.endswith(_LINE_END) or last and not source.grows
    return digests.digest if whole else ""


class Read(NamedTuple):
    """Whole lines as they stand in a file, with the words that mark them, the digest of the file's
    first line, the place of these ones, and the day on which the file was written; where that is to
    be found, the file's name and the number of the first of the lines."""

    lines: bytes
    marks: list[str]
    first: str
    begin: int
    written: date
    file: str = ""
    line: int = 0


# The text of a line, its words, and whether it could not be read.
Line = tuple[str, list[str], bool]


def entries_of(read: Read, kind: str, parsed: Callable[[bytes, date], Line],
               with_parts: bool) -> list[Entry]:
    """The entries of lines. The first and the last have the marks."""
    lines = read.lines.split(_LINE_END)
    if not lines[-1]:
        lines.pop()
    entries, last, query = [], len(lines) - 1, f"{read.first} {read.begin}"
    places = lines_words(named("in", read.file), read.line, len(lines)) if read.line else None
    for at, line in enumerate(lines):
        marks = places[at] if places else []
        if at in (0, last):
            marks = [*read.marks, *marks]
        entries.append(entry(kind, line.rstrip(b"\r"), parsed, read.written, marks, query,
                             with_parts))
    return entries


def entry(kind: str, line: bytes, parsed: Callable[[bytes, date], Line], written: date,
          marks: list[str], asked_by: str, with_parts: bool) -> Entry:
    """A line as a document with these marks. One that takes too much time or memory is stored as
    it stands."""
    for attempt, read_as in enumerate((parsed, _bare)):
        with suppress(decoding.Slow, MemoryError):
            decoding.begin(len(line), attempt)
            text, words, is_unreadable = _read_by(read_as, line, written)
            data, is_cut = document(kind, text, [*marks, *words],
                                    with_parts and read_as is parsed)
            decoding.end()
            return Entry(data, asked_by, 0, is_cut, is_unreadable, read_as is not parsed)
    raise MemoryError


def _read_by(parsed: Callable[[bytes, date], Line], line: bytes, written: date) -> Line:
    """What a line is read as. One that cannot be read stands as it is."""
    try:
        return parsed(line, written)
    except MemoryError:
        raise
    except Exception as error:  # Lines are broken in more ways than anybody knows.
        return f"[not read: {type(error).__name__}]\n{decoded(line[:MOST_BYTES])}", [], True


def _bare(line: bytes, _: date) -> Line:
    return decoded(line[:MOST_BYTES]), [], False


def _parsed(line: bytes, written: date) -> Line:
    text = decoded(line)
    return text, [*days.words_of(stamps.of_line(text, written))], False


def _read_lines(read: Read, with_parts: bool) -> list[Entry]:
    return entries_of(read, Logs.kind, _parsed, with_parts)


class Logs:
    """Logs, a document for each line. A later load goes on where this one ended, in the same log or
    in what it was rotated to; a last line without its end waits."""

    kind = "log"
    read_chunk = staticmethod(_read_lines)
    longest, has_places = LONGEST_LINE, True

    def __init__(self, *paths: str) -> None:
        self.inputs, self.passed = inputs(paths)
        for one in self.inputs:
            one.refuse_what_is_no_text()
        self.size, self.read = sum(one.size for one in self.inputs), 0
        self.room = sum(one.room for one in self.inputs)
        self.notes: list[str] = []
        self.readable = len(self.inputs)
        self._files: list[_File] = []

    def begin(self, store: Store) -> None:
        """Finds out of each file how much the store has of it."""
        knows = has_kind(store, self.kind)
        for source in self.inputs:
            self._files.extend(self._with_earlier(store, source) if knows else [_File(source)])
        if not knows:
            self._go_on_behind_earlier_client(store)

    def _known(self, store: Store, source: Input) -> _File:
        """A file, to be read behind what the store has of it."""
        file = _File(source)
        for marks in _marks(store, self.kind, asked("first", file.first)) if file.first else []:
            if known := _begins_with(source, marks):
                file.begin = known.size
                break
        return file

    def _with_earlier(self, store: Store, source: Input) -> Iterator[_File]:
        """A log, and before it the rest of what it was when it was loaded last."""
        file = self._known(store, source)
        if source.grows:
            yield from self._earlier(store, file)
        yield file

    def _earlier(self, store: Store, file: _File) -> Iterator[_File]:
        """What a log was rotated to, if the store has more of a file of its name."""
        source = file.source
        known = next(filter(None, _marks(store, self.kind, asked("file", source.name))), [])[:1]
        if not known or known[0].size <= file.begin:
            return
        if any(_begins_with(one, known) for one in self.inputs):
            return
        beside = _rotated(source)
        at = next((at for at, one in enumerate(beside) if _begins_with(one, known)), None)
        if at is None:
            self.notes.append(
                f"{source.path} is not what it was at its last load, and what that was rotated to "
                "is not beside it: name it too, or what it had more is not stored; lines that both "
                "have may be there twice")
            return
        named_too = {one.name for one in self.inputs}
        for one in beside[at:]:
            if one.name not in named_too:
                file = self._known(store, one)
                file.note = f"{source.path} was rotated: {one.path} is loaded first"
                yield file

    def _go_on_behind_earlier_client(self, store: Store) -> None:
        """An earlier client wrote no marks, and knew a line by its number among all. Where the
        store's last document is the line of its number, loading begins behind it."""
        number = store.count().next - 1
        try:
            told = earlier(store.show(number)) if number else None
        except NoSuchDocument:
            return
        if told is None:
            return
        text, _ = told
        for file in self._files:
            with file.source.opened() as (stream, _):
                for line, size in stream.lines(self.longest):
                    number, file.begin = number - 1, file.begin + size
                    if number == 0:
                        if decoded(line).split() == text.split():
                            self.notes.append("the store is of an earlier client: `date:` finds no "
                                              "line that it has")
                            return
                        break
        for file in self._files:
            file.begin = 0

    def tasks(self, _: object, with_parts: bool) -> Iterator[Task]:
        """What is to be done for the lines behind those that the store has."""
        before = 0
        for file in self._files:
            with file.source.opened() as (stream, raw):
                for read in self._reads(file, stream):
                    self.read = min(before + raw.tell(), self.size)
                    yield self.read_chunk, read, with_parts
            before += file.source.size

    def _reads(self, file: _File, stream: Stream) -> Iterator[Read]:
        digests, last, number = _Digests(), _LINE_END, 1
        while digests.size < file.begin:
            last = stream.read(min(file.begin - digests.size, CHUNK_BYTES))
            if not last:
                return
            digests.take(last)
            number += last.count(_LINE_END)
        while not last.endswith(_LINE_END) and (last := stream.line(self.longest)):
            digests.take(last)  # A last line that had no end.
            number += last.count(_LINE_END)
        begin, name = digests.size, os.path.basename(file.source.name)
        for lines in self._whole_lines(stream, file.source, digests):
            if not file.first:  # Its first line has got its end since it was looked at.
                file.first = _first_of(file.source)
            if file.note:
                self.notes.append(file.note)
            file.note = ""
            mark = Mark(file.first, digests.size, digests.digest, file.source.name)
            yield Read(lines, mark.words(), file.first, begin, file.source.written, name,
                       number if self.has_places else 0)
            begin, number = digests.size, number + lines.count(_LINE_END)

    def _whole_lines(self, stream: Stream, source: Input, digests: _Digests) -> Iterator[bytes]:
        """The lines of a stream, so many at once as a process decodes; the digests are those of
        all that is read up to there. A last one without its end is left out where more may come. Of
        one that is too long the rest is passed over."""
        rest = b""
        while data := stream.read(max(CHUNK_BYTES, len(rest)) // 4):
            *pieces, rest = _pieces(rest + data)
            for piece in pieces:
                digests.take(piece)
                yield piece
            if len(rest) > self.longest and (end := rest.rfind(_LINE_END) + 1):
                digests.take(rest[:end])
                yield rest[:end]
                rest = rest[end:]
            if len(rest) > self.longest:
                digests.take(rest)
                begin, rest = rest[:self.longest], _behind_line(stream, digests)
                if digests.is_line_end or not source.grows:
                    yield begin + _LINE_END
        end = rest.rfind(_LINE_END) + 1 if source.grows else len(rest)
        if rest[:end]:
            digests.take(rest[:end])
            yield rest[:end]
        if rest[end:] or not digests.is_line_end:
            self.notes.append(f"{source.path}: its last line has no end yet, and waits for the "
                              "next load")

    def still_lacking(self, store: Store, entries: list[Entry]) -> list[Entry]:
        """The entries, if nobody has added lines behind those that this load knows of."""
        begins: dict[str, int] = {}
        for entry in entries:
            first, begin = entry.query.split()
            begins[first] = min(int(begin), begins.get(first, int(begin)))
        for file in self._files:
            if file.first not in begins:
                continue
            for marks in _marks(store, self.kind, asked("first", file.first)):
                new = [mark for mark in marks if mark.size > begins[file.first]]
                if new and _begins_with(file.source, new):
                    raise Overtaken(f"another program has loaded lines of {file.source.path} "
                                    "meanwhile: run it again")
        return entries


def _rotated(source: Input) -> list[Input]:
    """The files that a log may have been rotated to, the oldest first."""
    numbered = re.compile(re.escape(source.path) + r"[.-](?:\d[\d-]*|old)(?:\.(?:gz|xz|bz2))?")
    paths = filter(numbered.fullmatch, glob.glob(glob.escape(source.path) + "[.-]*"))
    return inputs(sorted(filter(os.path.isfile, paths), key=_changed))[0]


def _changed(path: str) -> float:
    """When a file was changed last; one that has gone just now is passed over as it is opened."""
    with suppress(OSError):
        return os.path.getmtime(path)
    return 0


def _behind_line(stream: Stream, digests: _Digests) -> bytes:
    """Reads on to the end of a line, and gives what is read behind it."""
    while data := stream.read(CHUNK_BYTES):
        end = data.find(_LINE_END) + 1
        digests.take(data[:end] if end else data)
        if end:
            return data[end:]
    return b""


def _pieces(data: bytes) -> Iterator[bytes]:
    """Whole lines in pieces of as many as may be added at once, and last the rest."""
    start = 0
    for count, found in enumerate(re.finditer(_LINE_END, data), 1):
        if count % CHUNK_ITEMS == 0:
            yield data[start:found.end()]
            start = found.end()
    end = data.rfind(_LINE_END) + 1
    if end - start > CHUNK_BYTES * 3 // 4:
        yield data[start:end]
        start = end
    yield data[start:]
