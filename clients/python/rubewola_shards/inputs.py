"""What is loaded into shards: items in their order, whose places are their numbers."""

from __future__ import annotations

import os
from collections.abc import Iterator
from itertools import groupby, islice
from typing import Any, NamedTuple

from rubewola.errors import InputRefused
from rubewola.files import Input
from rubewola.layout import split
from rubewola.loading import BATCH_BYTES, BATCH_DOCUMENTS
from rubewola.logs import Logs, Read
from rubewola.mailboxes import Mailboxes
from rubewola.sources import CHUNK_ITEMS, Task, portions

from .archive import Archive


class Item(NamedTuple):
    """An item as it stands in its file, and of a line that file and the line's number there."""

    data: bytes
    file: Input | None = None
    line: int = 0


class Lines:
    """Logs, a document for each line, one file after the other. A last line without its end waits
    for the next load."""

    def __init__(self, *paths: str) -> None:
        self._files, self.notes = _whole(Logs(*paths)).inputs, list[str]()

    def items(self) -> Iterator[Item]:
        """All lines, with their ends."""
        for file in self._files:
            with file.opened() as (stream, _):
                for number, (line, _) in enumerate(stream.lines(Logs.longest), 1):
                    if line.endswith(b"\n"):
                        yield Item(line, file, number)
                    elif not file.fault and self._is_whole(file):
                        yield Item(line + b"\n", file, number)
            _refuse_faults([file])

    def _is_whole(self, file: Input) -> bool:
        """Whether a line without its end is one: of the last file more may come."""
        waits = file is self._files[-1] and file.grows
        if waits:
            self.notes = [f"{file.path}: its last line has no end yet, and waits for the next load"]
        return not waits

    @staticmethod
    def task(items: list[Item], with_parts: bool) -> Task:
        """What makes documents of lines of one file, one behind the other. How far the archive has
        it is known, so no line is marked."""
        file, line = items[0].file, items[0].line
        name, lines = os.path.basename(file.name), b"".join(item.data for item in items)
        return Logs.read_chunk, Read(lines, [], "", 0, file.written, name, line), with_parts


class Mails:
    """Mailbox files, a document for each mail, one box after the other. A mail that stands twice is
    two."""

    def __init__(self, *paths: str) -> None:
        self._boxes, self.notes = _whole(Mailboxes(*paths)), list[str]()

    def items(self) -> Iterator[Item]:
        """All mails."""
        for raw in self._boxes.items():
            _refuse_faults(self._boxes.inputs)
            yield Item(raw)
        _refuse_faults(self._boxes.inputs)

    @staticmethod
    def task(items: list[Item], with_parts: bool) -> Task:
        """What makes documents of mails."""
        return Mailboxes.read_chunk, [item.data for item in items], with_parts


def _whole(source: Any) -> Any:
    """A source, all of whose files can be read: an item is known by its place among all, so none is
    passed over."""
    if source.passed:
        raise InputRefused(source.passed[0])
    return source


def _refuse_faults(files: list[Input]) -> None:
    """Refuses a file of which no more could be read."""
    for file in files:
        if file.fault:
            raise InputRefused(file.fault)


def tasks_of(source: Lines | Mails, items: list[Item], with_parts: bool) -> list[Task]:
    """What makes a document of each of these items, which follow each other."""
    return [source.task(chunk, with_parts)
            for _, some in groupby(items, lambda item: id(item.file))
            for chunk in portions(some, CHUNK_ITEMS, _size)]


def batches(archive: Archive, source: Lines | Mails, start: int) -> Iterator[tuple[int, list[Item]]]:
    """The items from a number on, each time so many in a row as a shard commits at once, with the
    number of the first."""
    items, number = islice(source.items(), start - 1, None), start
    while True:
        row, begin = archive.row(number), number
        for batch in portions(islice(items, row), BATCH_DOCUMENTS, _size, BATCH_BYTES):
            yield number, batch
            number += len(batch)
        if number < begin + row:
            return


def _size(item: Item) -> int:
    return len(item.data)


def known_by(stored: str) -> str:
    """What an item is known by where it is stored: a mail's checksum, or the line."""
    text, known = split(stored)
    return known.get("sum", text)
