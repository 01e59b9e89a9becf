"""The words of a query where they stand in a text, marked, and the line round the first of them."""

from __future__ import annotations

import re

from .letters import ALONE, bare
from .queries import FIELDS, LINE_FIELDS, plain
from .words import clean

TYPE_CHECKING = False
if TYPE_CHECKING:
    from collections.abc import Iterable, Iterator
    from typing import Any

    from .queries import Query

BEGIN, END = "\x1b[1m", "\x1b[m"  # Bold, and as it was.

# A run of letters and digits; of those that stand alone each.
_RUN = re.compile(rf"{ALONE}|(?:(?!{ALONE})[^\W_])+")

# The fields that no line of a list has, with the names of the lines of a head.
_HEAD_LINES = {"to": "to", "cc": "cc", "attachment": "attached"}
FIELD_OF = {name: field for field, name in _HEAD_LINES.items()}
_LOOKED_AT = 262_144  # Characters of a text in which a word is looked for.


class Marks:
    """The words of a query, the beginnings of words and the phrases, folded as the program folds
    them; and what is to be marked in a field alone."""

    def __init__(self, typed: Iterable[str], fields: Iterable[tuple[str, str]] = ()) -> None:
        self._typed, self._fields = [*typed], [*fields]
        self._words: set[str] = set()
        self._phrases: dict[str, list[list[str]]] = {}  # By the first word.
        begun: list[str] = []
        for chunk in self._typed:
            runs = [run.casefold() for run in _RUN.findall(clean(chunk))]
            if chunk.startswith('"') and len(runs) > 1:
                self._phrases.setdefault(runs[0], []).append(runs)
                continue
            if runs and chunk.endswith("*"):
                begun.append(runs.pop())
            self._words.update(runs)
        self._begun = tuple(begun)

    @classmethod
    def of(cls, query: Query) -> Marks:
        """What is to be marked of a query."""
        return cls(query.words, query.fields)

    def within(self, name: str) -> Marks:
        """What is to be marked in a field of a mail."""
        values = [value for field, value in self._fields if field == name]
        return Marks([*self._typed, *values]) if values else self

    def of_line(self) -> Marks:
        """What is to be marked in a line, which has its fields within it."""
        values = [value for field, value in self._fields
                  if field not in FIELDS or field in LINE_FIELDS]
        return Marks([*self._typed, *values]) if values else self

    def _found(self, text: str) -> Iterator[tuple[int, int]]:
        """Where each word and each phrase stands that is to be marked, by where it begins. No more
        of a text is looked at than is asked for, but where there are phrases."""
        runs = ((run.span(), run[0].casefold()) for run in _RUN.finditer(text))
        if not self._phrases:
            yield from (place for place, run in runs if self._marks(run))
            return
        every = [*runs]
        for at, ((begin, end), run) in enumerate(every):
            if self._marks(run):
                yield begin, end
            for phrase in self._phrases.get(run, ()):
                if [one for _, one in every[at:at + len(phrase)]] == phrase:
                    yield begin, every[at + len(phrase) - 1][0][1]

    def _marks(self, run: str) -> bool:
        return self._has(run) or not run.isascii() and self._has(bare(run))

    def _has(self, run: str) -> bool:
        return run in self._words or run.startswith(self._begun)

    def finds(self, text: str) -> bool:
        """Whether anything is to be marked in a text."""
        return next(self._found(text[:_LOOKED_AT]), None) is not None

    def head_line(self, doc: dict[str, Any], width: int) -> str:
        """The line of a mail's head in which a field was found that no list of hits shows."""
        for field, name in _HEAD_LINES.items():
            marks = self.within(field)
            if marks is not self and marks.finds(doc[name]):
                return f"{name.capitalize()}: {marks.context(doc[name], width)}"
        return ""

    def pieces(self, text: str) -> Iterator[tuple[str, bool]]:
        """A text in pieces, each with whether it is one of the words."""
        at = 0
        for begin, end in _apart(self._found(text)):
            yield text[at:begin], False
            yield text[begin:end], True
            at = end
        yield text[at:], False

    def marked(self, text: str) -> str:
        """A text with the signs of a terminal round each word."""
        return "".join(f"{BEGIN}{piece}{END}" if is_word else piece
                       for piece, is_word in self.pieces(text))

    def context(self, text: str, width: int) -> str:
        """So many characters of a text as one line, with the first of the words in their midst;
        where none stands in it, its beginning."""
        text = plain(" ".join(text[:_LOOKED_AT].split()))
        at = next((begin for begin, _ in self._found(text)), 0)
        begin = max(0, min(at - width // 3, len(text) - width))
        if begin and (space := text.find(" ", begin, at)) >= 0:
            begin = space + 1
        return text[begin:begin + width]


def _apart(places: Iterable[tuple[int, int]]) -> list[tuple[int, int]]:
    """Places by where they begin, of which those that overlap are one."""
    found: list[tuple[int, int]] = []
    for begin, end in places:
        if found and begin < found[-1][1]:
            found[-1] = found[-1][0], max(end, found[-1][1])
        else:
            found.append((begin, end))
    return found
