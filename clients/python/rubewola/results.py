"""Documents that were found: when they came, which of them are told in which order, and as what."""

from __future__ import annotations

import io
import sys
from itertools import islice

from . import searching
from .errors import Damaged, Misused
from .layout import CUT, DAY_DIGITS, HEAD, MAILS, MARK, line_of, split
from .places import Places
from .queries import plain
from .store import DAMAGED, shown
from .words import SIGN

TYPE_CHECKING = False
if TYPE_CHECKING:
    from collections.abc import Callable, Iterable, Iterator
    from typing import Any

    from .searching import Found
    from .store import Reader

IN_MEMORY = 67_108_864  # Bytes of texts that are held in memory; more go to a temporary file.
LONGEST_SENDER = 512  # Characters of a sender in which a name is looked for.

_TAIL = MARK.replace("\n", "\v")
_DAY = 86_400  # Seconds.
_STAMP = 300  # Characters of a line in which its stamp stands.
_CLOCK = (0, 2, 5, 8, 11, 14, 17)  # Where two digits stand in `2010-05-14 23:30:00`.


def parsed(stored: str, number: int) -> dict[str, Any]:
    """A document by its parts: a mail's head and body, or a line."""
    text, known = split(stored)
    day = known.get("day")
    told = {"number": number, **({"day": f"{day[:4]}-{day[4:6]}-{day[6:]}"} if day else {})}
    if known.get("kind") not in MAILS:
        place = {"file": known["in"], "line": line_of(known)} if "in" in known else {}
        return {**told, **place, "text": text}
    names = {name: known[name] for name in ("id", "path") if name in known}
    head, body = _mail_parts(text)
    return {**told, **names, **dict(zip(HEAD, head)), "text": body}


def _mail_parts(text: str) -> tuple[list[str], str]:
    """The lines of a mail's head and its body, whatever the text holds: any program may have added
    it, and a head that is too long was cut."""
    *head, body = text.split("\n", len(HEAD) + 1)
    if len(head) <= len(HEAD):
        head, body = ([*head, body], "") if body != CUT.strip() else (head, body)
    return [*head, *[""] * len(HEAD)][:len(HEAD)], body


def _moment(reply: str) -> float:
    """When a document came, as seconds in UTC from the year 0 on, from a reply to `show`: a mail by
    its clock and zone, a line by its day and its own clock. What has no day is older than all
    else."""
    words = reply.rpartition(_TAIL)[2].split(" ")
    for at, word in enumerate(words):
        if len(word) == 1 + DAY_DIGITS and word[0] == SIGN and word[1:].isdecimal():
            clock = reply.split("\v", 5)[4:5] if words[0][1:] in MAILS else []
            if _has_clock(clock):
                return _of_clock(clock[0])
            hour = next((word[1:] for word in words[at + 1:at + 3] if len(word) == 3), "")
            return _days(word[1:]) * _DAY + (_of_hour(hour, reply) if hour.isdecimal() else 0)
    return float("-inf")


def _of_hour(hour: str, reply: str) -> int:
    """The seconds of a line's clock, of which the hour is known; minutes are looked for near the
    line's begin."""
    at = reply.find(f"{hour}:", 0, _STAMP) + 3
    minute, second = reply[at:at + 2], reply[at + 3:at + 5]
    if at < 3 or not minute.isdecimal() or len(minute) < 2:
        return int(hour) * 3_600
    has_second = reply[at + 2:at + 3] == ":" and second.isdecimal() and len(second) == 2
    return int(hour) * 3_600 + int(minute) * 60 + (int(second) if has_second else 0)


def _has_clock(lines: list[str]) -> bool:
    """Whether a line is that of a mail's time: `2010-05-14 23:30:00`, or with a zone behind it."""
    digits = "".join(lines[0][at:at + 2] for at in _CLOCK) if lines else ""
    return len(digits) == 2 * len(_CLOCK) and digits.isdecimal()


def _of_clock(line: str) -> float:
    """The seconds of a mail's time, whose zone is written as mails write it: `-0600`."""
    day = _days(line[:4] + line[5:7] + line[8:10])
    hour, minute, second = (int(line[at:at + 2]) for at in _CLOCK[-3:])
    sign, zone = line[20:21], line[21:25]
    east = 0
    if sign in ("+", "-") and len(zone) == 4 and zone.isdecimal():
        east = (int(zone[:2]) * 60 + int(zone[2:])) * (60 if sign == "+" else -60)
    return day * _DAY + hour * 3_600 + minute * 60 + second - east


def _days(digits: str) -> int:
    """How many days there are from the year 0 to a day of eight digits. Years begin with March, so
    that a leap day is the last of one."""
    year, month, day = int(digits[:4]), int(digits[4:6]), int(digits[6:])
    year, month = (year - 1, month + 9) if month < 3 else (year, month - 3)
    return 365 * year + year // 4 - year // 100 + year // 400 + (153 * month + 2) // 5 + day


class _Texts:
    """Texts that wait to be told: in memory, or where they are many in a temporary file. The class
    of the standard library that does so takes as long to import as a search."""

    def __init__(self) -> None:
        self._file: Any = io.BytesIO()
        self._size = 0

    def put(self, text: str) -> tuple[int, int]:
        """Keeps a text, and gives its place and size."""
        data, place = text.encode(), self._size
        if place <= IN_MEMORY < place + len(data):
            import tempfile
            held, self._file = self._file, tempfile.TemporaryFile()
            self._file.write(held.getbuffer())
        self._file.write(data)
        self._size += len(data)
        return place, len(data)

    def get(self, place: int, size: int) -> str:
        """A text that was kept."""
        self._file.seek(place)
        return self._file.read(size).decode()


class Results:
    """Documents that are read from their stores at once, to be told when these are closed, the
    newest last; and those that are `damaged`, each with a text that says so."""

    def __init__(self) -> None:
        self._hits: list[tuple[Any, ...]] = []
        self._texts, self._names = _Texts(), []
        self.damaged: list[dict[str, Any]] = []

    def read(self, store: Reader, numbers: list[int], name: str = "") -> Results:
        """Reads documents of a store, which is called by a name where there are several. One that
        was deleted since it was found is none any more."""
        self._names.append(name)
        for reply, number in zip(store.replies(numbers), numbers):
            if reply == DAMAGED:
                why = str(Damaged("damaged").of(store.path))
                self.damaged.append(self._named(len(self._names) - 1,
                                                {"number": number, "text": why}))
            elif reply:
                self._hits.append((_moment(reply), len(self._names) - 1, number,
                                   *self._texts.put(reply)))
        return self

    def newest(self, count: int) -> Iterator[dict[str, Any]]:
        """The documents by their parts: so many of the newest, the newest last."""
        return self.told(sorted(self._hits)[-count:])

    @property
    def hits(self) -> list[tuple[Any, ...]]:
        """What is known of each document: its moment, the place of its store, its number, and where
        its text is held."""
        return self._hits

    def told(self, hits: Iterable[tuple[Any, ...]]) -> Iterator[dict[str, Any]]:
        """Documents by their parts."""
        places = Places()
        for _, name, number, *held in hits:
            doc = parsed(shown(self._texts.get(*held)), number)
            if "path" in doc:
                doc["path"] = places.path_at(doc["path"]) or doc["path"]
            yield self._named(name, doc)

    def _named(self, name: int, doc: dict[str, Any]) -> dict[str, Any]:
        """A document with what its store is called, if that has a name."""
        return {"store": self._names[name], **doc} if self._names[name] else doc


# The keys of orders that texts tell; behind equal ones the oldest stands first.
_KEYS: dict[str, Callable[[dict[str, Any]], str]] = {
    "from": lambda doc: sender(doc.get("from", "")).casefold(),
    "subject": lambda doc: _bare(doc.get("subject", "")).casefold(),
}
_REPLIES = ("re:", "fwd:", "fw:", "aw:", "sv:")
_WINDOW = 5  # Characters of the longest with the space behind it.


def _bare(subject: str) -> str:
    """A subject without what answers put before it, which may be there any number of times."""
    at = 0
    while (end := subject.find(" ", at, at + _WINDOW)) >= 0 and \
            subject[at:end].casefold() in _REPLIES:
        at = end
        while subject[at:at + 1].isspace():
            at += 1
    return subject[at:]


class Choice:
    """A choice by the options of a search: an order, how many documents of it are passed over, how
    many are wanted, and whether mails of one message id count as one. Without an order the newest
    are wanted, and stand last."""

    def __init__(self, options: dict[str, Any]) -> None:
        if "newest" in options and options.get("sort", "newest") != "newest":
            raise Misused("--newest is an order, and --sort names another")
        self._order = "newest" if "newest" in options else options.get("sort", "")
        self._passed, self._limit = options.get("offset", 0), options.get("limit", sys.maxsize)
        self._is_unique = "unique" in options

    @property
    def _wanted(self) -> int:
        return min(self._passed + self._limit, sys.maxsize)

    def read(self, results: Results, found: Found, name: str) -> None:
        """Reads as many of the documents of a store as may be told."""
        if self._is_unique or self._order not in ("", "newest", "number"):
            numbers = found.numbers
        elif self._order == "number":
            numbers = found.numbers[:self._wanted]
        else:
            # What is passed over ends in the midst of a day, whose moments tell where.
            numbers = searching.newest(found, self._wanted, bool(self._passed))
        results.read(found.store, numbers, name)

    def documents(self, results: Results) -> Iterator[dict[str, Any]]:
        """The documents that are told, in their order."""
        kept = islice(self._kept(results), self._passed, self._wanted)
        return iter([*kept][::-1]) if not self._order else kept

    def count(self, results: Results) -> int:
        """How many documents there are without a limit."""
        return sum(1 for _ in self._kept(results))

    def _kept(self, results: Results) -> Iterator[dict[str, Any]]:
        """All documents in their order; without one, the newest first."""
        hits = sorted(results.hits, reverse=self._order in ("", "newest"))
        if self._is_unique:
            hits = self._unique(results, hits)
        if self._order == "number":
            hits.sort(key=lambda hit: hit[1:3])
        elif self._order in _KEYS:
            keys = map(_KEYS[self._order], results.told(hits))
            hits = [hit for _, _, hit in sorted(zip(keys, range(len(hits)), hits))]
        return results.told(hits)

    def _unique(self, results: Results, hits: list[Any]) -> list[Any]:
        """Of the mails of one message id the newest."""
        is_falling = self._order in ("", "newest")
        newest: dict[str, Any] = {}
        for hit, doc in zip(hits, results.told(hits)):
            key = doc.get("id") or hit[1:3]
            if key not in newest or not is_falling:
                newest[key] = hit
        kept = set(newest.values())
        return [hit for hit in hits if hit in kept]


class Hits:
    """Hits, which are numbers of documents, each with the place of its store among the stores."""

    def __init__(self, stores: list[Reader], typed: str) -> None:
        notes: list[str] = []
        self.found = [searching.answer(store, typed, notes.append) for store in stores]
        self.notes = [*dict.fromkeys(notes)]
        self.query = self.found[0].query
        self.numbers = self._merged(found.numbers for found in self.found)

    @staticmethod
    def _merged(each: Iterable[list[int]]) -> list[tuple[int, int]]:
        return sorted((number, at) for at, numbers in enumerate(each) for number in numbers)

    def inside(self, span: str) -> list[tuple[int, int]]:
        """What of it lies in a decade, a year, a month or a day, as its digits."""
        return self._merged(found.inside(span) for found in self.found)

    def read(self, start: int, count: int) -> list[dict[str, Any]]:
        """So many documents behind the newest `start`, the newest first, and last those of them
        that are damaged; `store` is the place of the store."""
        newer = {*searching.newest(self, start)} if start else set()
        wanted = [hit for hit in searching.newest(self, start + count) if hit not in newer]
        results = Results()
        for place, found in enumerate(self.found):
            results.read(found.store, [number for number, at in wanted if at == place], str(place))
        return [*[*results.newest(count)][::-1], *results.damaged]


def where(doc: dict[str, Any]) -> str:
    """A mail's path, or else its message id; a line's number."""
    return str(doc.get("path") or doc.get("id") and plain(f"<{doc['id']}>") or numbered(doc))


def numbered(doc: dict[str, Any]) -> str:
    """A document's number, behind its store where there are several."""
    return f"{doc['store']}:{doc['number']}" if "store" in doc else str(doc["number"])


def place(doc: dict[str, Any]) -> str:
    """Where a line stands: its file and its number there, as far as they are known."""
    return ":".join(str(doc[name]) for name in ("file", "line") if doc.get(name))


def sender(told: str) -> str:
    """A sender's name, or else the address."""
    name, angle, address = told.strip().partition("<")
    name = name.strip()
    if len(name) > 1 and name[0] == name[-1] == '"':
        name = name[1:-1]
    if (not angle or address.endswith(">")) and not any(sign in name for sign in '"(),:;\\[]'):
        return " ".join(name.split()) or address[:-1] or told
    from email.utils import parseaddr
    try:
        return next(filter(None, parseaddr(told[:LONGEST_SENDER])), told)
    except (IndexError, RecursionError, ValueError):
        return told


def as_line(doc: dict[str, Any]) -> str:
    """A document in one line: a mail's day, sender, subject and path or id; or the line."""
    line = doc["text"]
    if "date" in doc:
        line = f"{doc['date'][:10]}  {sender(doc['from'])}  {doc['subject']}  {where(doc)}"
    return plain(f"{numbered(doc)}: {line}").replace("\n", " ")


def as_json(doc: dict[str, Any]) -> str:
    """A document as an object of JSON."""
    import json
    return json.dumps(doc)


FORMATS = {"text": as_line, "json": as_json, "paths": where}
