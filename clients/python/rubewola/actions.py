"""What the commands do. Each gives its status, 0, or 1 where something was not found."""

from __future__ import annotations

import os
import sys

from . import queries, searching
from .errors import Failed, Misused, NoSuchDocument, Refused, StoreError, tell, waits
from .layout import split
from .results import FORMATS, Choice, Results, as_line
from .store import LEAST_UNITS, MOST_NUMBER, MOST_UNITS, UNIT, Reader, Store

TYPE_CHECKING = False
if TYPE_CHECKING:
    from collections.abc import Iterable, Iterator
    from typing import Any

    from .commands import Given

DIGITS = 18  # No number of a document has so many; Python refuses to read thousands of them.
WAIT = 10  # Seconds for which a store that another program has is waited for.
WIDTH = 100  # Characters of a line of the text, where the terminal does not tell.
_FACTORS = {"": 1, "K": 1 << 10, "M": 1 << 20, "G": 1 << 30, "T": 1 << 40}  # Of a size.


def opened(path: str) -> Store:
    """A store that is changed, waited for where another program has it."""
    return Store(path, WAIT, waits)


def read(path: str) -> Reader:
    """A store that is searched and shown, whatever others do with it."""
    return Reader(path, WAIT, waits)


def put(lines: object, end: str = "\n") -> None:
    """Prints results."""
    for line in lines:
        sys.stdout.write(line + end)


def search(given: Given) -> int:
    """Prints what is found in all stores, the newest last or in another order. Each store is closed
    before anything is printed."""
    results, count, query = Results(), 0, None
    is_counted = "count" in given.options and "unique" not in given.options
    choice = None if is_counted else _choice(given)
    for path in given.stores:
        with read(path) as store:
            found = searching.answer(store, " ".join(given.words), tell)
            count, query = count + len(found.numbers), found.query
            if is_counted:
                continue
            name = path if len(given.stores) > 1 else ""
            if choice:
                choice.read(results, found, name)
            else:
                numbers = searching.newest(found, given.options.get("limit", sys.maxsize))
                results.read(store, numbers, name)
    if is_counted:
        lines = [str(count)]
    elif "count" in given.options:
        lines = [str(choice.count(results))]
    else:
        lines = _lines(given, _documents(given, results, choice), query)
    for doc in results.damaged:  # The others are shown.
        tell(as_line(doc))
    _put_paged(given, lines)
    return 2 if results.damaged else 0 if count else 1


def _put_paged(given: Given, lines: Iterable[str]) -> None:
    """Prints results, on a terminal by a pager."""
    if "null" in given.options:
        put(lines, "\0")
        return
    pager = ""
    if sys.stdout.isatty() and "no_pager" not in given.options and "count" not in given.options:
        from . import terminal
        pager = terminal.pager()
    if pager:
        terminal.put_paged(lines, pager)
    else:
        put(lines)


def _choice(given: Given) -> Choice | None:
    """Which documents are wanted in which order; None where these are the newest, the newest
    last."""
    is_made = {"offset", "sort", "newest", "unique"} & given.options.keys()
    return Choice(given.options) if is_made else None


def _documents(given: Given, results: Results,
               choice: Choice | None) -> Iterator[dict[str, Any]]:
    """What is told, in its order."""
    if choice:
        return choice.documents(results)
    return results.newest(given.options.get("limit", sys.maxsize))


def _lines(given: Given, documents: Iterator[dict[str, Any]], query: queries.Query) -> object:
    """The lines of what was found; on a terminal with the words marked, and with what is round
    them."""
    form = given.options.get("format", "text")
    is_seen = sys.stdout.isatty() and "null" not in given.options
    if form != "text" or not is_seen and "context" not in given.options:
        return map(FORMATS[form], documents)
    from . import terminal
    is_marked = is_seen and not os.environ.get("NO_COLOR")
    return terminal.lines(documents, query, _columns() if is_seen else WIDTH, is_marked,
                       "context" in given.options)


def _columns() -> int:
    try:
        return os.get_terminal_size(sys.stdout.fileno()).columns or WIDTH
    except OSError:
        return WIDTH


def number(word: str) -> int:
    """The number of a document, as it is typed."""
    if not word.isdecimal():
        raise Misused(f"{word} is no number of a document")
    return int(word) if len(word) <= DIGITS else MOST_NUMBER


def show(given: Given) -> int:
    """Prints the texts of documents."""
    texts, numbers, status = [], [*map(number, given.words)], 0
    if "raw" in given.options:
        return _show_raw(given.stores[0], numbers)
    with read(given.stores[0]) as store:
        for one in numbers:
            try:
                texts.append(store.show(one))
            except Refused as refused:  # Of a damaged store the others are shown.
                tell(f"{one}: {refused}")
                status = max(status, 1 if isinstance(refused, NoSuchDocument) else 2)
    _put_paged(given, (queries.plain(split(text)[0]).removesuffix("\n") for text in texts))
    return status


def _show_raw(path: str, numbers: list[int]) -> int:
    """Prints mails as their files have them, whatever their bytes."""
    from . import maildirs
    status = 0
    with read(path) as store:
        for one in numbers:
            try:
                data, why = maildirs.file_of(split(store.show(one))[1])
            except (NoSuchDocument, OSError) as refused:
                data, why = None, str(refused)
            if data is None:
                tell(f"{one}: {why}")
                status = 1
            else:
                sys.stdout.flush()
                sys.stdout.buffer.write(data)
    return status


def delete(given: Given) -> int:
    """Deletes documents by their numbers or by a query, and commits."""
    numbers, query = [*map(number, given.words)], given.options.get("query")
    if bool(numbers) == bool(query):
        raise Misused("delete wants numbers, or --query and a query")
    with opened(given.stores[0]) as store:
        if query:
            numbers = searching.find(store, query, tell)
        deleted = sum(_is_deleted(store, one) for one in numbers)
        store.commit()
    tell(f"deleted {deleted} documents")
    return 0 if deleted == len(numbers) > 0 else 1


def _is_deleted(store: Store, one: int) -> bool:
    try:
        store.delete(one)
    except NoSuchDocument as refused:
        tell(f"{one}: {refused}")
        return False
    return True


def info(given: Given) -> int:
    """Tells what a store has: documents by their kinds, days, and room."""
    from . import inspecting
    with read(given.stores[0]) as store:
        lines = inspecting.facts(store)
    put([*lines, inspecting.room(given.stores[0])])
    return 0


def check(given: Given) -> int:
    """Prints what a sound store has. The status of one that is not sound is 1."""
    from . import documents, inspecting
    path, found = given.stores[0], None
    try:
        found = Store.check(path, WAIT, waits)
    except Failed as failed:
        if failed.reason != "damaged":
            raise
        tell(str(failed))
    try:
        with read(path) as store:
            compared = inspecting.Compared(store)
    except StoreError:
        if found:
            raise
        return 1  # It is told why.
    for told in compared.told:
        tell(queries.plain(told))
    if unknown := compared[documents.NONE]:
        tell(f"{unknown:,} documents have no digest: of them only the words were compared")
    if found and not compared.told:
        put([f"ok {found.documents} documents next {found.next} segments {found.segments}"])
        return 0
    return 1


def tidy(given: Given) -> int:
    """Puts one segment in the place of eight neighbours."""
    with opened(given.stores[0]) as store:
        store.tidy()
    return 0


def merge(given: Given) -> int:
    """Puts one segment in the place of all."""
    with opened(given.stores[0]) as store:
        store.merge()
    return 0


def _units_of(size: str) -> int:
    """The units of a size, as 64M."""
    number, factor = size.rstrip("KMGTkmgt"), size[-1:].upper()
    if not number.isdecimal() or len(size) - len(number) > 1:
        raise Misused("--size wants bytes, as 500M or 20G")
    found = int(number[:DIGITS]) * _FACTORS.get(factor, 1) // UNIT
    if not LEAST_UNITS <= found <= MOST_UNITS or len(number) > DIGITS:
        raise Misused("--size is from 32K to 1T")
    return found


def create(given: Given) -> int:
    """Makes an empty store."""
    from .store import make
    make(given.stores[0], _units_of(given.options.get("size", "256M")))
    return 0


def grow(given: Given) -> int:
    """Gives a store more units, and prints how many it has."""
    from . import commits
    path, units = given.stores[0], given.options.get("units")
    if units and not LEAST_UNITS <= units <= MOST_UNITS:
        raise Misused(f"--units is from {LEAST_UNITS} to {MOST_UNITS:,}")
    if units:
        is_grown = Store.grow(path, units, WAIT, waits)
    else:
        is_grown = units = commits.grow(path, commits.units_of(path), wait=WAIT, waiting=waits)
    put([f"{'grown to' if is_grown else 'has'} {units or commits.units_of(path)} units"])
    return 0


def load(given: Given) -> int:
    """Loads what a command line names."""
    from . import loading
    return loading.carry_out(given)


def serve(given: Given) -> int:
    """Serves a page for a browser."""
    from . import serving
    return serving.serve(given)


def shell(given: Given) -> int:
    """Answers a person's commands."""
    from . import prompt
    return prompt.shell(given)

