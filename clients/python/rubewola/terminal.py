"""What a person at a terminal sees: results with the words marked, a pager, as git has one, and how
far a load is.
"""

from __future__ import annotations

import os
import shlex
import shutil
import signal
import subprocess
import sys
import time
from collections import deque
from collections.abc import Iterable, Iterator
from contextlib import suppress
from typing import Any

from . import config
from .errors import tell
from .marks import FIELD_OF, Marks
from .queries import plain
from .results import as_line, place

TYPE_CHECKING = False
if TYPE_CHECKING:
    from .queries import Query

DRAWN = 0.1  # Seconds after which a bar is drawn anew.
_WIDTH = 24  # Of a bar.
_INDENT = "    "
_LESS = {"LESS": "FRX", "LV": "-c"}  # As git sets them where they are not.


def lines(documents: Iterable[dict[str, Any]], query: Query, width: int, is_seen: bool,
          has_places: bool = False) -> Iterator[str]:
    """A line for each document, and behind that of a mail one of its text, or of its head where a
    field was found there; behind that of a log, if it is to have it, its place; where they are seen
    by a person with the words marked."""
    marks, room = Marks.of(query), width - len(_INDENT)
    for doc in documents:
        if "date" not in doc:
            yield marks.of_line().marked(as_line(doc)) if is_seen else as_line(doc)
            if has_places and (at := place(doc)):
                yield f"{_INDENT}{plain(at)}"
            continue
        yield _mail_line(doc, marks) if is_seen else as_line(doc)
        head = "" if marks.finds(doc["text"]) else marks.head_line(doc, room)
        if line := head or marks.context(doc["text"], room):
            name = line.partition(":")[0].lower()
            shown = marks.within(FIELD_OF.get(name, name)) if head else marks
            yield _INDENT + (shown.marked(line) if is_seen else line)


def _mail_line(doc: dict[str, Any], marks: Marks) -> str:
    """The line of a mail with the words marked: in its sender and its subject also those that were
    asked for in these."""
    line, subject = as_line(doc), plain(doc["subject"])
    before, found, behind = line.partition(f"  {subject}  ")
    if not found:
        return marks.marked(line)
    return (marks.within("from").marked(before) + "  " + marks.within("subject").marked(subject)
            + "  " + marks.marked(behind))


def pager() -> str:
    """The command of the pager; an empty text where there is to be none."""
    named = os.environ.get("RUBEWOLA_PAGER")
    if named is None:
        named = config.read().pager or os.environ.get("PAGER", "less")
    words = shlex.split(named) if named.count('"') % 2 == named.count("'") % 2 == 0 else []
    terminal = os.environ.get("TERM", "dumb")
    if not words or words == ["cat"] or terminal == "dumb" or not shutil.which(words[0]):
        return ""
    return named


def put_paged(lines: Iterable[str], pager: str) -> None:
    """Hands lines to a pager, and waits until it ends; an interrupt is the pager's."""
    before = signal.signal(signal.SIGINT, signal.SIG_IGN)
    try:
        sys.stdout.flush()
        with subprocess.Popen(pager, shell=True, stdin=subprocess.PIPE, encoding="utf-8",
                              errors="surrogateescape", env={**_LESS, **os.environ}) as process:
            with suppress(BrokenPipeError):  # Who has seen enough ends it.
                for line in lines:
                    process.stdin.write(f"{line}\n")
            with suppress(BrokenPipeError):
                process.stdin.close()
    finally:
        signal.signal(signal.SIGINT, before)


class Progress:
    """The progress of a load, by the bytes of its source that are read."""

    def __init__(self, source: Any) -> None:
        self._source, self._begin, self._drawn = source, time.monotonic(), 0.0
        self._is_seen = bool(sys.stderr) and sys.stderr.isatty()
        self._ahead, self._read = deque(), 0

    def _told(self) -> tuple[float, str]:
        """Which part is read, and how fast, and what is left."""
        seconds = max(time.monotonic() - self._begin, 1e-3)
        read, size = self._read, max(self._source.size, self._source.read, 1)
        rate = read / seconds
        left = int((size - read) / max(rate, 1))
        return read / size, f"{rate / 1e6:.1f} MB/s  {left // 60}:{left % 60:02} left"

    def noted(self, tasks: Iterable[Any]) -> Iterator[Any]:
        """Tasks as they come, each of which is to give a chunk."""
        for task in tasks:
            self._ahead.append(self._source.read)
            yield task

    def drawn(self, chunks: Iterable[list[Any]]) -> Iterator[list[Any]]:
        """Chunks as they come, with a bar of them on a terminal."""
        loaded = 0
        try:
            for chunk in chunks:
                yield chunk
                self._read = self._ahead.popleft()
                loaded, seconds = loaded + len(chunk), time.monotonic() - self._begin
                if self._is_seen and seconds > self._drawn + DRAWN:
                    self._drawn, (done, told) = seconds, self._told()
                    bar = f"{'#' * int(done * _WIDTH):.<{_WIDTH}}"
                    sys.stderr.write(f"\r[{bar}] {done:4.0%}  {loaded:,} loaded  {told} ")
        finally:
            if self._drawn:
                sys.stderr.write("\r\x1b[K")

    def committed(self, documents: int) -> None:
        """Tells of a batch behind which another comes."""
        if documents and not self._is_seen:
            done, told = self._told()
            tell(f"{documents:,} loaded  {done:.0%}  {told}")
