"""The text of a mail and the words that find it.

The text is the lines of HEAD, which do not name themselves, an empty line, and the body. The words
are those of its fields, its days, its message id and its checksum.
"""

from __future__ import annotations

import re
from collections.abc import Iterator
from contextlib import suppress
from functools import lru_cache
from typing import NamedTuple

from . import days, decoding, documents, letters, stamps
from .documents import MOST_BYTES, document
from .layout import HEAD
from .mime import LONGEST_FIELD, Part, blocks, read, text_of
from .sources import Entry
from .texts import charset_of, decoded, page_text
from .words import APART, asked, clean, digest, field_words, guarded, named, unguarded

LONGEST_MAIL = 134_217_728  # Bytes of a mail that are read.
MOST_HEAD_BYTES = 500_000  # Of the lines of a head, as they are stored.

# Fields of a mailbox's mail that change as it is read.
_CHANGING = re.compile(rb"^(?:Status|X-Status|X-Keywords|X-UID|X-IMAP|X-IMAPbase|Content-Length"
                       rb"|Lines|X-Mozilla-Status2?|X-Mozilla-Keys|X-Evolution|X-KMail-[\w-]+)"
                       rb"[ \t]*:.*\n(?:[ \t].*\n)*", re.IGNORECASE | re.MULTILINE)
_ID = re.compile(rb"^Message-ID[ \t]*:(.*(?:\r?\n[ \t].*)*)", re.IGNORECASE | re.MULTILINE)
_BLANK = re.compile(rb"^\r?\n", re.MULTILINE)
# Texts whose long lines go on behind a space.
_FOLDED = ("text/calendar", "text/vcard", "text/x-vcard", "text/directory")
_WITH_PARTS = ("multipart/", "message/partial", "message/rfc822")
_DEEPEST = 8  # Alternatives within alternatives; of those further in all is shown.
# What HTML may have more of than the plain text beside it: five times its words.
_RICHER = 5


class Parsed(NamedTuple):
    """What an item becomes: its text, the words behind it, and what its reader should be told."""

    text: str
    words: list[str]
    cut: bool = False
    unreadable: bool = False
    slow: bool = False
    unfiltered: str = ""


@lru_cache(maxsize=1)
def identity(raw: bytes) -> tuple[bytes, str]:
    """A mail's message id, and its checksum, which stays when a mailbox marks the mail as read."""
    blank = _BLANK.search(raw)
    end = blank.start() if blank else len(raw)
    found = _ID.search(raw, 0, end)
    value = b"".join(found[1].split()) if found else b""
    return value.strip(b"<>"), digest(_CHANGING.sub(b"", raw[:end]) + raw[end:].rstrip())


def query_of(raw: bytes) -> str:
    """What finds a mail that is stored: its message id and its checksum."""
    value, known = identity(raw)
    return f"{asked('id', value)} {asked('sum', known)}"


def _names(raw: bytes) -> list[str]:
    value, known = identity(raw)
    return [*named("id", value), *named("sum", known)]


def one_line(text: str) -> str:
    """A text as one line that any file may hold."""
    return " ".join(text.split()).encode("utf-8", "replace").decode()


def field(part: Part, name: str) -> str:
    """The header fields of a name as one line of text."""
    values = part.values(name)
    return one_line(", ".join(map(text_of, values))[:LONGEST_FIELD]) if values else ""


def _is_long(part: Part) -> bool:
    return any(len(value) > LONGEST_FIELD for _, value in part.fields)


class _Body:
    """What the parts of a mail hold: the `texts` to show, with those `behind` all parts; `more` of
    alternatives that are not shown; the `names` of attached files, and those that are `attached`,
    of which the text is shown where that is chosen, or why it is not is `unfiltered`."""

    def __init__(self, top: Part) -> None:
        self.names: list[str] = []
        self.more: list[str] = []
        self.behind: list[str] = []
        self.attached: list[Part] = []
        self.unfiltered = ""
        self.texts = [*self._texts(top, 0, True), *self.behind]
        if documents.chosen().filters is not None:
            self.texts.extend(self._filtered())

    def _texts(self, top: Part, depth: int, is_mail: bool = False) -> Iterator[str]:
        waiting = [top]  # No recursion: parts may stand in one another a thousand deep.
        while waiting:
            part = waiting.pop()
            is_text = part.kind.startswith("text/")
            is_attached = part.is_attached or part.kind == "text/x-amp-html"
            is_whole = is_mail and part is top  # Of a mail of one part that is the text.
            name = one_line(part.file_name)
            if name and (is_attached or not is_text or not is_whole):
                self.names.append(name)
            if part.kind.startswith("message/"):
                yield from _heads(part)
            if part.inner:
                if part.kind == "multipart/alternative" and depth < _DEEPEST:
                    yield from self._chosen(part.inner, depth + 1)
                else:
                    waiting.extend(reversed(part.inner))
                if part.behind.strip():
                    self.behind.append(decoded(part.behind))
            elif part.kind.startswith(_WITH_PARTS) or is_text and (is_whole or not is_attached):
                yield _part_text(part)
            else:
                self.attached.append(part)

    def _filtered(self) -> Iterator[str]:
        """The texts of attached files."""
        from . import filters
        for text, why in filters.texts(self.attached, _part_text):
            self.unfiltered = self.unfiltered or why
            if text:
                yield text

    def _chosen(self, inner: list[Part], depth: int) -> Iterator[str]:
        """Of alternatives the plain ones, and the others too where they have many more words."""
        plain, rich = [], []
        for part in inner:
            (plain if part.kind == "text/plain" else rich).extend(self._texts(part, depth))
        few, many = (sum(len(text.split()) for text in own) for own in (plain, rich))
        yield from plain
        if many > _RICHER * few:
            yield from rich
        else:
            self.more.extend(rich)


def _heads(part: Part) -> Iterator[str]:
    """The heads of an attached mail, or of a report of a failed delivery, as text."""
    if part.kind in ("message/rfc822", "message/news", "message/global"):
        for name in ("from", "to", "cc", "subject", "date"):
            if part.inner and (told := field(part.inner[0], name)):
                yield told
    else:
        for fields, rest in [(one.fields, b"") for one in part.inner] or blocks(part):
            yield "\n".join(f"{name}: {one_line(text_of(value[:LONGEST_FIELD]))}"
                            for name, value in fields)
            if rest.strip():
                yield decoded(rest)


def _part_text(part: Part) -> str:
    data, charset = part.data, part.parameter("charset").lower()
    if part.kind == "text/html":
        charset = charset or charset_of(data) or ""
    text = decoded(data, charset).replace("\r\n", "\n")
    if part.kind in _FOLDED:
        text = re.sub(r"\n[ \t]", "", text)
    if part.parameter("delsp").lower() == "yes":
        text = re.sub(r" \n(?!>)", "", text)
    return page_text(text) if part.kind == "text/html" else text


def _day(top: Part) -> tuple[str, tuple[str, ...]]:
    """The time of the sender's clock, or else of the newest `Received`, and its day's words."""
    told = field(top, "date")
    received = (decoded(one.rpartition(b";")[2]) for one in top.values("received")[:1])
    for text in (told, *received):
        if when := stamps.of_date(text):
            shown = when.isoformat(" ", "seconds")  # The zone is written as mails write it.
            zone = shown[19:].replace(":", "")
            return f"{shown[:19]} {zone}".strip(), days.words_of(when)
    return told, ()


def _fitting(lines: list[str]) -> list[str]:
    """The lines of a head as they are stored: each has its part of the room, so that none of them
    takes that of the others."""
    spelled = [guarded(clean(line)).encode() for line in lines]
    if sum(map(len, spelled)) <= MOST_HEAD_BYTES:
        return lines
    most = MOST_HEAD_BYTES // len(lines)
    return [unguarded(line[:most].decode(errors="ignore")) for line in spelled]


def _lacking(texts: list[str], shown: str) -> list[str]:
    """The words of texts that another has not, none in a row with another."""
    if not texts:
        return []
    there = set(_words(shown))
    lacking = (word for word in dict.fromkeys(_words("\n".join(texts))) if word not in there)
    return [one for word in lacking for one in (word, APART)]


def _words(text: str) -> list[str]:
    return re.findall(r"[^\W_]+", clean(text).casefold())


def _parsed(top: Part, raw: bytes) -> Parsed:
    head, (day, day_words) = [field(top, name) for name in HEAD[:4]], _day(top)
    body = _Body(top)
    text, attached = "\n".join(body.texts), ", ".join(body.names)
    fields = {"from": head[0], "to": ", ".join(filter(None, [*head[1:3], field(top, "bcc")])),
              "cc": head[2], "subject": head[3], "list": field(top, "list-id"),
              "attachment": attached}
    found = [word for name, value in fields.items() if value for word in field_words(name, value)]
    if documents.chosen().accents:
        found += [word for name, value in fields.items()
                  for word in letters.bare_field_words(name, value)]
    lines = [*head, day, attached]
    shown = _fitting(lines)
    return Parsed("\n".join([*shown, "", text]),
                  [*_names(raw), *day_words, *found, *_lacking(body.more, text)],
                  _is_long(top) or shown != lines, unfiltered=body.unfiltered)


def mail(raw: bytes) -> Parsed:
    """A mail's text and words. Of one that cannot be read there is the head, and the rest as it
    stands. The date is that of the sender's clock, as `2010-05-14 23:30:00 -0600`, where it is
    readable."""
    if raw.startswith(b"From "):
        raw = raw.partition(b"\n")[2]
    try:
        parsed = _parsed(read(raw), raw)
        return parsed._replace(cut=parsed.cut or len(raw) >= LONGEST_MAIL)
    except MemoryError:
        raise
    except Exception as error:  # Mails are broken in more ways than anybody knows.
        return _by_head(raw, type(error).__name__)._replace(unreadable=True)


def _by_head(raw: bytes, why: str) -> Parsed:
    """The head of a mail that was not read, for a reason, and the rest as it stands."""
    blank = _BLANK.search(raw)
    end = blank.start() if blank else len(raw)
    try:
        head = re.sub(rb"^(?=Content-|MIME-)", b"X-", raw[:end], flags=re.I | re.M) + b"\n"
        parsed = _parsed(read(head), raw)
    except Exception:  # Nor may its head be sound.
        parsed = _unread(raw)
    rest = decoded(raw[end:end + MOST_BYTES])
    return parsed._replace(text=f"{parsed.text}[not read: {why}]\n{rest}")


def _slow(raw: bytes) -> Parsed:
    """A mail that takes too long, by its head."""
    return _by_head(raw, "too slow")._replace(slow=True)


def _unread(raw: bytes) -> Parsed:
    """A mail of which nothing is read."""
    return Parsed("\n" * len(HEAD) + "\n", _names(raw), slow=True)


def entry(kind: str, raw: bytes, names: list[str], asked_by: str, with_parts: bool = True,
          replaces: int = 0) -> Entry:
    """A mail as a document with these names. One that takes too much time or memory is stored by
    its head; one whose head does, by its names."""
    for attempt, read_as in enumerate((mail, _slow, _unread)):
        with suppress(decoding.Slow, MemoryError):
            decoding.begin(len(raw), attempt)
            parsed = read_as(raw)
            data, is_cut = document(kind, parsed.text, [*names, *parsed.words], with_parts)
            decoding.end()
            return Entry(data, asked_by, replaces, is_cut or parsed.cut, parsed.unreadable,
                         parsed.slow, unfiltered=parsed.unfiltered)
    raise MemoryError
