"""How a store has a document: its text, and behind MARK words that say what it is.

It is apart from what writes these, `documents`, for the sake of a fast start: a search imports it.
"""

from __future__ import annotations

from .words import NAMING, SIGN, meant, unguarded

MARK = "\n\x1d"
CUT = "\n[cut]"  # Ends a text of which the rest was left out.
HEAD = ("from", "to", "cc", "subject", "date", "attached")  # Of a mail, a line each.
KINDS = ("maildir", "mbox", "log", "json", "journal")
MAILS = KINDS[:2]

DAY_DIGITS = 8
_THOUSANDS, _REST = "k", "l"  # Before the digits of a line's number.
_LINE = {_THOUSANDS: "thousands", _REST: "rest"}
_MOST_DIGITS = 12
_EARLIER = ("id", "path", "cursor")


def split(stored: str) -> tuple[str, dict[str, str]]:
    """A document's text, and what the words behind it say that it is: its kind, its day as eight
    digits, and its names."""
    text, mark, tail = stored.rpartition(MARK)
    kind, *words = tail.split(" ")
    if not mark or not _is_kind(kind):
        return stored, {}
    known = {"kind": kind[len(SIGN):]}
    for word in words:
        if word.startswith(NAMING):
            name, line, value = word[len(NAMING):].partition("_")
            if line:
                known[name] = meant(value)
        elif word.startswith(SIGN) and word[1:].isdecimal() and len(word) == 1 + DAY_DIGITS:
            known["day"] = word[1:]
        elif word[:1] == SIGN and word[1:2] in _LINE and len(word) <= _MOST_DIGITS:
            if word[2:].isdecimal():
                known[_LINE[word[1:2]]] = word[2:]
    return unguarded(text), known


def line_words(line: int) -> list[str]:
    """The words of a line's number in its file: its thousands, and the three digits of the rest. So
    a million lines have two thousand words."""
    return [f"{SIGN}{_THOUSANDS}{line // 1_000}", f"{SIGN}{_REST}{line % 1_000:03}"]


def lines_words(file: list[str], first: int, count: int) -> list[list[str]]:
    """The words of so many lines from one on, of a file with these words."""
    rests = [line_words(rest)[1] for rest in range(min(count, 1_000))] if count > 1 else []
    found = []
    for line in range(first, first + count):
        if line % 1_000 == 0 or not found:
            before = [*file, line_words(line)[0]]
        rest = line % 1_000
        found.append([*before, rests[rest] if rest < len(rests) else line_words(line)[1]])
    return found


def line_of(known: dict[str, str]) -> int:
    """The number of a line in its file, or 0."""
    return int(known.get("thousands", "0")) * 1_000 + int(known.get("rest", "0"))


def _is_kind(word: str) -> bool:
    return word.startswith(SIGN) and word[len(SIGN):] in KINDS


def earlier(stored: str) -> tuple[str, bool] | None:
    """The text of a document that no loader of kinds wrote, and whether an earlier client's loader
    did that wrote what a document is."""
    text, mark, tail = stored.rpartition(MARK)
    words = tail.split(" ")
    if mark and _is_kind(words[0]):
        return None
    names = (word.partition("_") for word in words)
    return (text, any(line and name in _EARLIER for name, line, _ in names)) if mark else (
        stored, False)
