"""Entries of programs: lines of JSON, and journals as `journalctl -o json` prints them."""

from __future__ import annotations

import json
import time
from collections.abc import Iterator
from contextlib import suppress
from datetime import date
from typing import Any

from . import days, documents, letters, stamps
from .documents import MOST_BYTES
from .errors import InputRefused
from .fields import level_of
from .files import Input, inputs
from .logs import Line, Logs, Read, entries_of, entry
from .mime import LONGEST_FIELD
from .sources import Entry, Named
from .store import Store
from .texts import decoded
from .words import APART, LONGEST_NAME, asked, digest, field_name, field_words, has_word, named

# The names under which entries tell their time, the surest first.
_TIMES = ("@timestamp", "timestamp", "time", "ts", "datetime", "date", "t", "asctime", "created",
          "created_at", "eventtime")
BYTE_ORDER = "\ufeff"  # Some programs begin a file with it.
_UNITS = ("_SYSTEMD_UNIT", "UNIT", "_SYSTEMD_USER_UNIT", "USER_UNIT")
_DEEPEST = 32
LONGEST_OBJECT = 16_777_216  # Bytes of a line of JSON that are read; of a longer one no value is.
LONGEST_OUTER = 256  # Characters of a name that stand before those of the values in it.
MOST_VALUES = 16_384  # Of an object, that are found by their names; more are words of its text.


def _told(value: object) -> str:
    """A value as text: a string as it is, any other as JSON writes it."""
    return value if isinstance(value, str) else json.dumps(value, ensure_ascii=False)


def _flat(value: object, name: str = "", depth: int = 0) -> Iterator[tuple[str, object]]:
    """The values of an object, each with its name: that in another has the names of both, of the
    outer one LONGEST_OUTER characters."""
    before = name[:LONGEST_OUTER]
    if isinstance(value, dict) and value and depth < _DEEPEST:
        for key, inner in value.items():
            yield from _flat(inner, f"{before}.{key}" if name else key, depth + 1)
    elif isinstance(value, list) and depth < _DEEPEST:
        for inner in value:
            yield from _flat(inner, before, depth + 1)
    else:
        yield name, value


def _as_text(value: dict[str, Any]) -> tuple[list[tuple[str, object]], str]:
    """The values of an object that are found by their names, and its text, or what of that a
    document has room for, and more."""
    flat: list[tuple[str, object]] = []
    lines: list[str] = []
    size = 0
    for name, told in _flat(value):
        if len(flat) < MOST_VALUES:
            flat.append((name, told))
        elif size > MOST_BYTES:
            break
        if size <= MOST_BYTES:
            lines.append(f"{name}: {_told(told)}")
            size += len(lines[-1]) + 1
    return flat, "\n".join(lines)


def _object(line: bytes) -> dict[str, Any] | None:
    with suppress(RecursionError, ValueError):
        # To read a number takes a time that grows with the square of its length.
        value = json.loads(decoded(line).removeprefix(BYTE_ORDER), parse_int=str)
        return value if isinstance(value, dict) else None
    return None


def _first_line(source: Input) -> bytes:
    """The first line that is not empty."""
    with source.opened() as (stream, _):
        return next((line for line, _ in stream.lines(LONGEST_OBJECT) if line.strip()), b"")


class _Fields:
    """The words of fields, of some lines; for each name that is met first, also its `has_` word."""

    def __init__(self) -> None:
        self._met: set[str] = set()

    def _words(self, name: str, value: object) -> list[str]:
        field, told = field_name(name[:LONGEST_NAME]), _told(value)[:LONGEST_FIELD]
        if not field:
            return []
        if field in ("id", "path"):  # JSON may have half of a pair, which is no character.
            words = named(field, told.encode("utf-8", "replace"))
        else:
            words = field_words(field, told)
        if documents.chosen().accents and field not in ("id", "path"):
            words += letters.bare_field_words(field, told)
        if field not in self._met:
            self._met.add(field)
            words.append(has_word(field))
        return words

    def parsed(self, line: bytes, _: date) -> Line:
        """A line of JSON. What is none stands as it is."""
        value = _object(line)
        if value is None:
            return decoded(line), [], bool(line.strip())
        flat, text = _as_text(value)
        by_name = {name.lower(): told for name, told in reversed(flat)}
        when = next(filter(None, (stamps.of_value(by_name.get(name)) for name in _TIMES)), None)
        words: list[str] = []
        before = None
        for name, told in flat:
            if name.lower() != "date" and (own := self._words(name, told)):
                words += [APART, *own] if name == before else own
                before = name
        return text, [*days.words_of(when), *words], False


def _read_json(read: Read, with_parts: bool) -> list[Entry]:
    return entries_of(read, JsonLines.kind, _Fields().parsed, with_parts)


class JsonLines(Logs):
    """Logs of JSON, an object a line, whose names are fields: `level:error`."""

    kind = "json"
    read_chunk = staticmethod(_read_json)
    longest, has_places = LONGEST_OBJECT, False  # An object may have a `file` and a `line` itself.

    def __init__(self, *paths: str) -> None:
        super().__init__(*paths)
        for one in self.inputs:
            line = _first_line(one)
            if line and _object(line) is None and (line.endswith(b"\n") or not one.grows):
                raise InputRefused(f"{one.path}: no lines of JSON: each is an object, as "
                                   '{"level": "error"}')


def _read_journal(lines: list[bytes], with_parts: bool) -> list[Entry]:
    found = []
    for line in lines:
        known = _cursor(line)
        found.append(entry(Journals.kind, line, _journal_entry, date.max, named("sum", known),
                           asked("sum", known), with_parts))
    return found


def _cursor(line: bytes) -> str:
    """The digest of an entry's cursor; where there is none, of the entry."""
    entry = _object(line) or {}
    return digest(str(entry.get("__CURSOR") or "").encode("utf-8", "replace") or line)


def _journal_entry(line: bytes, _: date) -> Line:
    entry = _object(line)
    try:
        seconds = int(entry["__REALTIME_TIMESTAMP"]) // 1_000_000
        when = time.strftime("%Y-%m-%d %H:%M:%SZ", time.gmtime(seconds))
    except (KeyError, OverflowError, OSError, TypeError, ValueError):
        return f"[not read: no time]\n{decoded(line)}", [], True
    message = entry.get("MESSAGE") or ""
    if isinstance(message, list):  # So is what is no UTF-8, by its bytes.
        with suppress(OverflowError, TypeError, ValueError):
            message = decoded(bytes(map(int, message)))
    name = entry.get("SYSLOG_IDENTIFIER") or entry.get("_COMM") or "-"
    pid = f"[{entry['_PID']}]" if entry.get("_PID") else ""
    text = f"{when} {entry.get('_HOSTNAME', '-')} {name}{pid}: {message}"
    return text, [*days.words_of(stamps.of_line(text, date.max)), *_journal_words(entry)], False


def _journal_words(entry: dict[str, Any]) -> list[str]:
    """The words of an entry's unit, priority and host."""
    unit = next(filter(None, map(entry.get, _UNITS)), None)
    told = {"unit": unit, "priority": level_of(str(entry.get("PRIORITY", ""))),
            "host": entry.get("_HOSTNAME")}
    return [word for name, value in told.items() if isinstance(value, str)
            for word in field_words(name, value[:LONGEST_NAME])]


class Journals(Named):
    """Journals as `journalctl -o json` prints them. Each entry that the store lacks is added; it is
    known by its cursor."""

    kind = "journal"
    read_chunk = staticmethod(_read_journal)

    def __init__(self, *paths: str) -> None:
        super().__init__()
        self.inputs, self.passed = inputs(paths)
        self.size = sum(one.size for one in self.inputs)
        self.room = sum(one.room for one in self.inputs)
        self.readable = len(self.inputs)
        for one in self.inputs:
            one.refuse_what_is_no_text()
            line = _first_line(one)
            if line and not {"__CURSOR", "__REALTIME_TIMESTAMP", "MESSAGE"} & (
                    _object(line) or {}).keys():
                raise InputRefused(f"{one.path}: no journal: `journalctl -o json` prints one")

    def items(self) -> Iterator[bytes]:
        """All whole lines, one file after the other."""
        for one, before in zip(self.inputs, self.sizes_before(self.inputs)):
            with one.opened() as (stream, raw):
                for line, _ in stream.lines(LONGEST_OBJECT):
                    self.read = before + raw.tell()
                    if line.strip() and (line.endswith(b"\n") or _object(line)):
                        yield line.rstrip(b"\n")

    def lacking(self, store: Store | None, lines: list[bytes]) -> list[bytes]:
        """The entries that the store has not."""
        known = [_cursor(line) for line in lines]
        found = zip(lines, known, self.found(store, [asked("sum", one) for one in known]))
        return [line for line, one, numbers in found if self.is_new(one) and not numbers]
