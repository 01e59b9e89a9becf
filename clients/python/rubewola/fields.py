"""What fields of a query ask for that are no words: priorities of journals, files, lines by their
numbers, and flags of maildirs' mails. It is imported for a query that has one.

Flags are what the names of files tell now, as `2000.a.host:2,FS`. They change all the time and
documents never, so no document has them. A query with flags is asked once for each way in which
they may be set, each flag as all documents or as none. What satisfies it in each way does so
whatever its flags are; of what satisfies it in some, the files are looked at.
"""

from __future__ import annotations

from collections.abc import Callable, Iterator
from itertools import product

from .errors import Damaged, QueryRefused
from .layout import MAILS, line_words, split
from .places import FOLDERS, Places
from .searching import Found
from .store import DAMAGED, shown
from .words import ABSENT, NAMING, SIGN, asked, field_words

LEVELS = ("emerg", "alert", "crit", "err", "warning", "notice", "info", "debug")
_OTHER_NAMES = {"emergency": "emerg", "critical": "crit", "error": "err", "warn": "warning",
                "panic": "emerg"}
MOST_LINE = 9_999_999_999  # Of a file; a range has at most MOST_THOUSANDS of them begun.
MOST_THOUSANDS = 64
LINE = f"a line is written 120, and a range of at most {MOST_THOUSANDS - 1:,},000 lines 120..140"
LEVEL = f"priorities are {', '.join(LEVELS)}, or 0 to 7"
LETTERS = {"passed": "P", "replied": "R", "seen": "S", "trashed": "T", "draft": "D", "flagged": "F"}
NEW = "new"  # What stands in `new`: no program has looked at it.
FLAGS = (*LETTERS, NEW)
MOST_FLAGS = 3  # Flags of a query: it is asked twice for one, and twice as often for each more.
_WORD = f"{NAMING}flag_"
_ALL = f"(NOT {ABSENT})"


def level_of(value: str) -> str:
    """The name of a priority, if it is one."""
    folded = value.casefold()
    if folded in {str(at) for at in range(len(LEVELS))}:
        return LEVELS[int(folded)]
    return _OTHER_NAMES.get(folded, folded if folded in LEVELS else "")


def is_priority(value: str) -> bool:
    """Whether a value is a priority of journals, or a range of them; others are words."""
    return bool(level_of(value)) or ".." in value


def priority(value: str) -> str:
    """The query of a priority, or of a range as `emerg..err`; a ValueError tells what is wrong with
    a range. Entries of JSON may have other names for theirs, so it asks for the typed word, too."""
    begin, dots, end = value.partition("..")
    if not dots:
        words = dict.fromkeys([*field_words("priority", value),
                               *field_words("priority", level_of(value))])
        return f"({' OR '.join(words)})"
    first, last = level_of(begin or LEVELS[0]), level_of(end or LEVELS[-1])
    if not first or not last:
        raise ValueError(LEVEL)
    between = sorted((LEVELS.index(first), LEVELS.index(last)))
    words = [field_words("priority", level)[0] for level in LEVELS[between[0]:between[1] + 1]]
    return f"({' OR '.join(words)})"


def file(value: str) -> str:
    """The query of a log's name, or of its beginning."""
    begun = value.endswith("*")
    if not value.rstrip("*"):
        raise ValueError("the value has no word")
    return asked("in", value[:-1]) + "*" if begun else asked("in", value)


def line(value: str) -> str:
    """The query of a line's number, or of a range of them; a ValueError tells what is wrong."""
    begin, dots, end = value.partition("..")
    first = _number(begin)
    last = _number(end) if dots else first
    if first > last:
        raise ValueError("the begin of the range is behind its end")
    if last // 1_000 - first // 1_000 >= MOST_THOUSANDS:
        raise ValueError(LINE)
    return f"({' OR '.join(_thousands(first, last))})"


def _number(text: str) -> int:
    if not text.isdecimal() or len(text) > len(str(MOST_LINE)):
        raise ValueError(LINE)
    return int(text)


def flag(name: str) -> str:
    """What stands for a flag in a query; a ValueError tells that there is none of this name."""
    folded = name.casefold()
    if folded not in FLAGS:
        raise ValueError(f"flags are {', '.join(FLAGS)}")
    return _WORD + folded


READ: dict[str, Callable[[str], str]] = {"priority": priority, "file": file, "line": line,
                                         "flag": flag}


def _thousands(first: int, last: int) -> Iterator[str]:
    """The queries of the thousands that a range has, whole or in part."""
    for thousand in range(first // 1_000, last // 1_000 + 1):
        begin = max(first - thousand * 1_000, 0)
        end = min(last - thousand * 1_000, 999)
        word = line_words(thousand * 1_000)[0]
        if (begin, end) == (0, 999):
            yield word
        else:
            yield f"({word} ({' OR '.join(_covered(begin, end))}))"


def _covered(begin: int, end: int) -> Iterator[str]:
    """The words of three digits from one number to another: whole hundreds and tens by their
    beginnings."""
    before = line_words(0)[1][:-3]
    while begin <= end:
        size = next(size for size in (100, 10, 1) if begin % size == 0 and begin + size - 1 <= end)
        digits = f"{begin:03}"[:{100: 1, 10: 2, 1: 3}[size]]
        yield f"{before}{digits}{'*' if size > 1 else ''}"
        begin += size


class FlaggedFound(Found):
    """What satisfies a query with flags."""

    def inside(self, span: str) -> list[int]:
        """What of it lies in a decade, a year, a month, a day or an hour, as its digits."""
        held = set(self.numbers)
        return [number for number in self.store.find(self.words_of(span)) if number in held]


def found_with_flags(plain: Found, tell: Callable[[str], None]) -> Found:
    """What satisfies a query with flags, of which it was seen that the program reads it. `tell` is
    given which mails cannot be read: their flags are not known, and they are left out."""
    store, query = plain.store, plain.query
    names = sorted({piece[len(_WORD):] for _, piece in query.pieces if piece.startswith(_WORD)})
    if len(names) > MOST_FLAGS:
        raise QueryRefused(f"a query may have {MOST_FLAGS} flags")
    ways = [*product((False, True), repeat=len(names))]
    sets = dict(zip(ways, map(set, store.find_all(
        _asked(query.pieces, dict(zip(names, way))) for way in ways))))
    sure = set.intersection(*sets.values())
    unsure = set.union(*sets.values()) - sure
    mails = sorted(unsure.intersection(store.find(SIGN + MAILS[0])))
    hits = sure | ((unsure & sets[ways[0]]) - set(mails))
    places = Places()
    for number, reply in zip(mails, store.replies(mails)):
        if reply == DAMAGED:
            tell(f"{number}: {Damaged('damaged').of(store.path)}")
            continue
        path = places.path_at(split(shown(reply))[1].get("path", "")) or ""
        if reply and number in sets[tuple(map(_flags_of(path).__contains__, names))]:
            hits.add(number)
    return FlaggedFound(store, query, sorted(hits))


def _asked(pieces: list[tuple[int, str]], way: dict[str, bool]) -> str:
    """The query with its flags set in one way."""
    told = {_WORD + name: _ALL if is_set else ABSENT for name, is_set in way.items()}
    return "".join(told.get(piece, piece) for _, piece in pieces)


def _flags_of(path: str) -> set[str]:
    """The flags that the path of a maildir's file tells."""
    folder, _, name = path.rpartition("/")
    letters = name.rpartition(":2,")[2] if ":2," in name else ""
    flags = {flag for flag, letter in LETTERS.items() if letter in letters}
    return flags | {NEW} if folder.rpartition("/")[2] == FOLDERS[1] else flags
