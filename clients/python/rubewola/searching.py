"""Finding documents: what satisfies a query, and of that the newest."""

from __future__ import annotations

from collections import namedtuple

from . import queries
from .errors import Damaged, NoSuchDocument, QueryRefused
from .layout import DAY_DIGITS, earlier
from .queries import pointed
from .words import SIGN, has_word

TYPE_CHECKING = False
if TYPE_CHECKING:
    from collections.abc import Callable
    from typing import Any

    from .store import Reader

EARLIER_CLIENT = ("documents of an earlier client have no fields that are found: load what they "
                  "come from into a new store")

_SAVED = "saved:"
# What the days of documents lie in, the newest first: after RANGED, its decades, before it.
SPANS = ("9", *(str(decade) for decade in range(209, 196, -1)), "0")


def _untold(_: str) -> None:
    """Tells nobody."""


class Found(namedtuple("Found", ("store", "query", "numbers"))):
    """What satisfies a query as it was read, while the store is open."""

    @staticmethod
    def words_of(span: str) -> str:
        """The words of a decade, a year, a month, a day or an hour."""
        day, hour = span[:DAY_DIGITS], span[DAY_DIGITS:]
        return f"{SIGN}{day} {SIGN}{hour}" if hour else SIGN + day

    def inside(self, span: str) -> list[int]:
        """What of it lies in a decade, a year, a month, a day or an hour, as its digits. What came
        since it was found has higher numbers."""
        inside = self.store.find(f"({self.query.text}) {self.words_of(span)}")
        while inside and inside[-1] > self.numbers[-1]:
            inside.pop()
        return inside


def read(store: Reader, typed: str) -> queries.Query:
    """A query with the fields of a store's documents, and saved searches."""
    if _SAVED in typed.casefold():
        from . import config
        typed = config.expanded(typed)
    return queries.read(typed, lambda name: store.has(has_word(name)))


def answer(store: Reader, typed: str, tell: Callable[[str], None] = _untold) -> Found:
    """What satisfies a query with fields, as `from:bdale`. The `place` of a fault is that of a
    typed character, and the refusal tells the query with a caret under it. `tell` is given what
    the query does not mean, where it looks as if it did."""
    query = read(store, typed)
    try:
        numbers = store.find(query.text)
    except UnicodeEncodeError:
        raise QueryRefused("the query is not text: some of it is no UTF-8") from None
    except QueryRefused as refusal:
        told = queries.why(refusal.reason, query.text, refusal.place)
        if refusal.place is not None:
            refusal.place = query.place(refusal.place)
            told = pointed(told, query.typed, refusal.place)
        refusal.args = (told,)
        raise
    for note in query.notes:
        tell(pointed(note.text, query.typed, note.place))
    if SIGN in query.text and has_earlier(store):
        tell(EARLIER_CLIENT)
    found = Found(store, query, numbers)
    if "flag" not in (name for name, _ in query.fields):
        return found
    from . import fields
    return fields.found_with_flags(found, tell)


def find(store: Reader, typed: str, tell: Callable[[str], None] = _untold) -> list[int]:
    """The numbers of what satisfies a query with fields."""
    return answer(store, typed, tell).numbers


def has_earlier(store: Reader) -> bool:
    """Whether a store was begun by an earlier client's loader, as its first document tells."""
    try:
        told = earlier(store.show(1))
    except (Damaged, NoSuchDocument):
        return False
    return bool(told and told[1])


def within(span: str) -> list[str]:
    """The years of a decade, the months of a year, the days of a month, the hours of a day, the
    newest first."""
    first, last = {3: (0, 9), 4: (1, 12), 6: (1, 31), 8: (0, 23)}.get(len(span), (0, -1))
    return [span + (str(at) if len(span) == 3 else f"{at:02}")
            for at in range(last, first - 1, -1)]


def newest(found: Any, count: int, is_whole: bool = False) -> list[Any]:
    """So many of what was found, the newest by hour; of an hour those with the highest numbers, or
    where hours are to be whole all. What has no hour stands before its day, and what has no day is
    older than all else."""
    pool, spans, taken, wanted = found.numbers, SPANS, [], count
    try:
        while spans and len(pool) > count:
            for span in spans:
                inside = found.inside(span)
                if len(inside) >= count:
                    pool, spans = inside, within(span)
                    break
                taken, count = taken + inside, count - len(inside)
            else:
                pool, spans, is_whole = sorted(set(pool) - set(taken)), (), False
    except (Damaged, QueryRefused):  # No day can be read, or there is no room for it in the query.
        if is_whole:
            return list(found.numbers)
        pool, taken, count = found.numbers, [], wanted
    return taken + (list(pool) if is_whole else pool[max(len(pool) - count, 0):])
