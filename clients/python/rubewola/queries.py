"""Queries as a user types them, with fields, as the program takes them."""

from __future__ import annotations

import os
from collections import namedtuple

from .errors import QueryRefused
from .places import place_of
from .words import SIGN, asked, clean, field_name, field_words, guarded

TYPE_CHECKING = False
if TYPE_CHECKING:
    import datetime
    from collections.abc import Callable, Iterator

LINE_FIELDS = ("unit", "priority", "host")  # Of journals, and maybe of lines of JSON.
FIELDS = ("from", "to", "cc", "subject", "list", "attachment", "date", "id", "path", "folder",
          "flag", "file", "line", *LINE_FIELDS)
_WHOLE = ("id", "path", "date", "flag", "file", "line")  # Their values are not cut into words.

# Characters of a query that are read; a value may be longer than what it asks for.
LONGEST = 65_536
# What the program refuses as a whole.
_REFUSED_WHOLE = {
    "query too long": "the query is too long: it may have 4,096 bytes",
    "query too deep": "the query is too deep: 64 brackets, or NOT in a row, may be open at once"}
OPERATORS = ("AND", "OR", "NOT")
_JOINERS = "\u200c\u200d"  # Within words of Persian and others; they steer nothing.


class Note(namedtuple("Note", ("text", "place"))):
    """What a user should know of a query, and the place of which it speaks."""


class Token(namedtuple("Token", ("text", "place", "name", "value", "rest"), defaults=("", "", ""))):
    """A space, a bracket, a phrase, or a chunk, which may begin with the name of a field and have a
    quoted value."""

    @property
    def is_chunk(self) -> bool:
        """Whether it is neither a space nor a bracket."""
        return not _is_break(self.text[0])

    @property
    def is_phrase(self) -> bool:
        """Whether it stands between quotation marks."""
        return self.text[0] == '"'

    @property
    def value_place(self) -> int:
        """Where the value begins."""
        return self.place + len(self.name) + 1


class Query(namedtuple("Query", ("typed", "pieces", "notes", "words", "fields"))):
    """A query as the program takes it: pieces with the places where they are typed; notes; what
    stands in it as words and phrases; and the values of its fields, each with the field's name."""

    @property
    def text(self) -> str:
        """All of it."""
        return "".join(piece for _, piece in self.pieces)

    def place(self, byte: int) -> int:
        """The place where the byte of the program's query comes from."""
        for place, piece in self.pieces:
            size = len(piece.encode())
            if byte < size:
                kept = piece.encode()[:byte].decode(errors="ignore")
                return place + (len(kept) if self.typed.startswith(piece, place) else 0)
            byte -= size
        return len(self.typed)


def plain(text: str) -> str:
    """A text without what might steer a terminal."""
    if text.isprintable():
        return text
    return "".join(c if c.isprintable() or c in "\n\t" or c in _JOINERS else " " for c in text)


def pointed(told: str, query: str, place: int) -> str:
    """What is told of a query, with the query and a caret under the place."""
    from unicodedata import combining, east_asian_width
    wide = sum((east_asian_width(c) in "WF") - (combining(c) > 0) for c in query[:place])
    return f"{told}\n{plain(query)}\n{' ' * (place + wide)}^"


def refused(told: str, query: str, place: int) -> QueryRefused:
    """A refusal of a query at a place."""
    refusal = QueryRefused(told)
    refusal.place, refusal.args = place, (pointed(told, query, place),)
    return refusal


def why(reason: str, text: str, byte: int | None) -> str:
    """A reason for which the program refused a query, in plain words."""
    if byte is None:
        return _REFUSED_WHOLE.get(reason, reason)
    before, behind = text.encode()[:byte].decode(errors="ignore"), text.encode()[byte:].decode(
        errors="ignore")
    if reason.startswith("query no word"):
        return "no word is here: letters or digits make one"
    if reason.startswith("query unclosed"):
        return "nothing closes this " + ("quotation mark" if behind[:1] == '"' else "bracket")
    if not behind:
        return "the query ends where a word must come"
    if behind[0] != ")":
        return f"a word must come before this {behind.split(' ')[0]}"
    outside = "".join(before.split('"')[::2])
    if outside.count("(") > outside.count(")"):
        return "a word must come before this closing bracket"
    return "a closing bracket without an opening one"


def _is_break(letter: str) -> bool:
    return letter.isspace() or letter in "()"


def _is_word(letter: str) -> bool:
    return letter.isalnum() or letter == "_"


def _end(typed: str, at: int) -> int:
    """Where a chunk ends."""
    while at < len(typed) and not _is_break(typed[at]) and typed[at] != '"':
        at += 1
    return at


def _close(typed: str, at: int) -> int:
    """Where a phrase ends that begins at a place."""
    return typed.find('"', at + 1) + 1 or len(typed)


def _is_name(text: str) -> bool:
    """Whether a text may be the name of a field."""
    return (_is_word(text[:1]) and not text[:1].isdecimal()
            and all(_is_word(letter) or letter in ".@-" for letter in text))


def _token(typed: str, at: int) -> Token:
    """What stands at a place."""
    if _is_break(typed[at]):
        return Token(typed[at], at)
    if typed[at] == '"':
        return Token(typed[at:_close(typed, at)], at)
    begin = _end(typed, at)
    name, colon, value = typed[at:begin].partition(":")
    if not colon or not _is_name(name):
        return Token(typed[at:begin], at)
    if value or typed[begin:begin + 1] != '"':
        return Token(typed[at:begin], at, name, value)
    close = _close(typed, begin)
    end = _end(typed, close)
    return Token(typed[at:end], at, name, typed[begin:close], typed[close:end])


def tokens(typed: str) -> Iterator[Token]:
    """What stands in a query, one behind the other."""
    at = 0
    while at < len(typed):
        yield (token := _token(typed, at))
        at += len(token.text)


def read(typed: str, has_field: Callable[[str], bool], today: datetime.date | None = None) -> Query:
    """The query that was typed. `has_field` tells of a name that is none of FIELDS whether
    documents of the store have it as a field."""
    if len(typed) > LONGEST:
        raise QueryRefused("query too long")
    typed = clean(typed.replace("\n", " "))
    query = Query(typed, [], [], [], [])
    found = [*tokens(typed)]
    chunks = [token for token in found if token.is_chunk]
    for token in found:
        piece = _field(token, typed, has_field, today) if token.name else None
        query.pieces.append((token.place, piece or _words_text(token)))
        if piece:
            query.fields.append((token.name.casefold(), token.value))
        if not piece and token.is_chunk:
            query.notes.extend(_notes(token, chunks))
            if token.text not in OPERATORS:
                query.words.append(token.text)
    return query


def _words_text(token: Token) -> str:
    """What a token asks for that stands as it is typed. A word that begins with a loader's sign
    asks for that sign alone, so it begins no loader's word."""
    text = token.text
    if SIGN in text and text.endswith("*") and not token.is_phrase:
        kept = text
        while not _is_word(kept[-1:]) and kept:
            kept = kept[:-1]
        if kept.endswith(SIGN) and (kept[-2:-1] == SIGN or not _is_word(kept[-2:-1])):
            text = kept
    return guarded(text)


def _field(token: Token, typed: str, has_field: Callable[[str], bool],
           today: datetime.date | None) -> str | None:
    """What a chunk asks for that begins as a field; None where it is just words."""
    name, value, is_quoted = token.name.casefold(), token.value.strip('"'), token.value[:1] == '"'
    if name not in FIELDS and not ((value or token.rest) and has_field(name)):
        if token.value[:1].isalpha() or is_quoted:
            raise refused(f'"{token.name}" is no field here; fields are {", ".join(FIELDS)}, '
                          "and those of loaded JSON; for words write a space in place of the "
                          "colon", typed, token.place)
        return None
    place = token.value_place
    if is_quoted and (len(token.value) == 1 or not token.value.endswith('"')):
        raise refused("nothing closes that quotation mark", typed, place)
    if token.rest:
        raise refused("a word stands right behind a quoted value", typed, place + len(token.value))
    if not value.strip():
        raise refused(f"{name}: wants a value right behind it", typed, place)
    if not is_quoted and not _is_whole(name, value):
        return _each_word(name, value, typed, place)
    told = _program_text(name, value, typed, place, today)
    if name in ("file", "line") and has_field(name):  # Of lines of JSON.
        told = f"({told} OR {_each_word(name, value, typed, place)})"
    return told


def _is_whole(name: str, value: str) -> bool:
    """Whether a value is not cut into words."""
    if name != "priority":
        return name in _WHOLE
    from . import fields
    return fields.is_priority(value)


def _field_words(name: str, value: str, typed: str, place: int) -> list[str]:
    """The words of a field's value, in its order."""
    words = field_words(field_name(name), value)
    if not words:
        raise refused("the value has no word", typed, place)
    return words


def _each_word(name: str, value: str, typed: str, place: int) -> str:
    """What a value asks for that is not quoted: each of its words, where a `*` ends it of the last
    one the beginning."""
    *before, last = _field_words(name, value, typed, place)
    asked_for = [*dict.fromkeys([*before, last + "*" if value.endswith("*") else last])]
    return asked_for[0] if len(asked_for) == 1 else f"({' '.join(asked_for)})"


def _program_text(name: str, value: str, typed: str, place: int,
                  today: datetime.date | None) -> str:
    """What any other value asks for; of a quoted one the words in a row."""
    if name == "id":
        return asked("id", value.strip("<>"))
    if name == "path":
        return asked("path", place_of(os.path.abspath(os.path.expanduser(value))))
    if name == "date":
        from datetime import date
        from . import days
        try:
            return days.query(value, today or date.today())
        except (ValueError, OverflowError) as error:
            raise refused(f"no day: {error}", typed, place) from error
    if _is_whole(name, value):
        from . import fields
        try:
            return fields.READ[name](value)
        except ValueError as error:
            raise refused(f"{name}: {error}", typed, place) from error
    words = _field_words(name, value, typed, place)
    return words[0] if len(words) == 1 else f'"{" ".join(words)}"'


def _notes(token: Token, chunks: list[Token]) -> Iterator[Note]:
    """What a chunk does not mean, where it looks as if it did."""
    text, place = token.text, token.place
    if _has_inner_star(text.strip('"') + "-" if token.is_phrase else text.rstrip("*")):
        where = "between quotation marks" if token.is_phrase else "within a word"
        yield Note(f"* means nothing {where}; at a word's end it stands for any ending", place)
    if text.upper() in OPERATORS and text not in OPERATORS:
        is_first, is_last = token is chunks[0], token is chunks[-1]
        if not is_last and (not is_first or text.upper() == "NOT"):
            yield Note(f'"{text}" is a word here; the operator is {text.upper()}', place)
    if text[0] in "-!+" and _is_word(text[1:2]):
        yield Note(f"{text[0]} means nothing here; NOT is the operator", place)


def _has_inner_star(text: str) -> bool:
    """Whether a `*` stands right behind a word."""
    return any(_is_word(one) and other == "*" for one, other in zip(text, text[1:]))
