"""What stands at the addresses of the page: hits, and a document."""

from __future__ import annotations

import re
import threading
from array import array
from collections import Counter, namedtuple
from contextlib import ExitStack, suppress
from urllib.parse import urlencode

from . import markup, results, searching
from .errors import Damaged, Failed, InUse, NoSuchDocument, QueryRefused, Refused
from .layout import HEAD, split
from .marks import FIELD_OF, Marks
from .results import Hits
from .searching import SPANS, within
from .sessions import Sessions
from .store import DAMAGED, ENDED, shown
from .words import SIGN

TYPE_CHECKING = False
if TYPE_CHECKING:
    from typing import Any

    from .searching import Found
    from .store import Reader

AT_ONCE = 20  # Hits on a page.
AROUND = 3  # Lines of a log that are shown before one, and as many behind it.
SNIPPET = 240  # Characters of a hit's text.
LONGEST = 200_000  # Characters of a document that are shown.
ROUND_IT = "around"  # Where the lines round one stand on its page.
BUSY = "The store is busy: try again in a moment."
FULL = {"path": "Path", "id": "Message-ID", "file": "File", "line": "Line"}  # Beside the head.


class View(namedtuple("View", ("status", "text", "kind"), defaults=(markup.HTML,))):
    """An answer: a status of HTTP, a text and its type."""


def _around(store: Reader, number: int) -> list[tuple[int, str]]:
    """The lines of the same log whose numbers stand round one, with it, by what they begin with."""
    near = range(max(number - AROUND, 1), number + AROUND + 1)
    replies = dict(zip(near, store.replies(near)))
    if replies.get(number) == DAMAGED:
        raise Damaged("damaged").of(store.path)
    there = {one: shown(reply) for one, reply in replies.items() if reply not in ("", DAMAGED)}
    if number not in there:
        raise NoSuchDocument("no such document")
    own = _log_of(there[number])
    return [(one, split(stored)[0].partition("\n")[0]) for one, stored in there.items()
            if _log_of(stored) == own]


def _log_of(stored: str) -> tuple[str | None, str | None]:
    """A document's kind and the name of its file, as far as they are known."""
    known = split(stored)[1]
    return known.get("kind"), known.get("in")


def _marks(store: Reader, query: str) -> Marks:
    """What is to be marked of a query that is not asked."""
    try:
        return Marks.of(searching.read(store, query))
    except QueryRefused:
        return Marks([])


class Views:
    """The pages over stores, below an address. Pages are written when the sessions with the stores
    are free for others again."""

    def __init__(self, stores: list[str], top: str) -> None:
        self._stores, self._top = stores, top
        self._sessions = [Sessions(path) for path in stores]
        self._months = [Months() for _ in stores]

    def open(self) -> None:
        """Opens a session with each store; raises why there is none."""
        for sessions in self._sessions:
            with sessions.one():
                pass

    def end_idle(self) -> None:
        """Ends sessions that nobody uses any more."""
        for sessions in self._sessions:
            sessions.end_idle()

    def view(self, rest: str, query: str, start: int) -> View:
        """What stands at an address."""
        if rest == "style.css":
            return View(200, markup.STYLE, markup.CSS)
        query = query.replace("\n", " ").strip()
        try:
            status, body = self._tried(rest, query, start)
        except NoSuchDocument:
            status, body = 404, "<p>There is no such document.</p>"
        except InUse:
            return self.busy(query)
        except (Damaged, Failed, OSError) as failed:
            status, body = 500, markup.told(str(failed))
        except Refused as refused:
            status, body = 400, markup.told(str(refused))
        return self._page(status, query, body)

    def busy(self, query: str = "") -> View:
        """What is told where a store is in use for too long."""
        return self._page(503, query, f"<p>{BUSY}</p>")

    def _page(self, status: int, query: str, body: str) -> View:
        return View(status, markup.page(self._top, query, body))

    def _tried(self, rest: str, query: str, start: int) -> tuple[int, str]:
        """What is answered, by another session where the first was ended meanwhile."""
        try:
            return self._answered(rest, query, start)
        except Failed as failed:
            if failed.reason != ENDED:
                raise
        return self._answered(rest, query, start)

    def _answered(self, rest: str, query: str, start: int) -> tuple[int, str]:
        if rest == "":
            return 200, self._hits(query, start) if query else self._welcome()
        found = re.fullmatch(r"doc/([0-9]{1,4})/([0-9]{1,10})", rest)
        if not found or int(found[1]) >= len(self._stores):
            return 404, "<p>Nothing is here.</p>"
        return 200, self._document(int(found[1]), int(found[2]), query)

    def _address(self, rest: str = "", **given: object) -> str:
        return f"{self._top}{rest}?{urlencode(given)}"

    def _welcome(self) -> str:
        names = "".join(f"<li>{markup.isolated(store)}</li>" for store in self._stores)
        return f"<h2>Stores</h2><ul>{names}</ul>"

    def _hits(self, query: str, start: int) -> str:
        """All is read, and then the page is written."""
        with ExitStack() as stack:
            hits = Hits([stack.enter_context(one.one()) for one in self._sessions], query)
            documents, counts = hits.read(start, AT_ONCE), {}
            with suppress(Damaged):  # Without the days there are no bars.
                counts = months(hits, self._months)
        marks, count = Marks.of(hits.query), len(hits.numbers)
        picture = markup.drawn(counts, lambda month: self._address(q=f"({query}) date:{month}"))
        items = "".join(self._hit(doc, query, marks) for doc in documents)
        return (f"<h2>{count:,} found</h2>\n{''.join(map(markup.told, hits.notes))}"
                f"<ol>\n{items}</ol>\n<nav>{self._turns(query, start, count)}</nav>{picture}")

    def _turns(self, query: str, start: int, count: int) -> str:
        """Links to the pages before and behind."""
        turns = [f"{start + 1:,} to {min(start + AT_ONCE, count):,}"] if start < count else []
        if start:
            newer = self._address(q=query, start=max(start - AT_ONCE, 0))
            turns.insert(0, markup.link(newer, "newer"))
        if start + AT_ONCE < count:
            turns.append(markup.link(self._address(q=query, start=start + AT_ONCE), "older"))
        return " · ".join(turns)

    def _hit(self, doc: dict[str, Any], query: str, marks: Marks) -> str:
        to = self._address(f"doc/{doc['store']}/{doc['number']}", q=query)
        store = self._stores[int(doc["store"])]
        where = f" {markup.isolated(store)}" if len(self._stores) > 1 else ""
        if "date" not in doc:
            marks = marks.of_line()
            text = markup.marked_line(marks.context(doc["text"], SNIPPET), marks)
            link, place = markup.link(to, str(doc["number"])), results.place(doc)
            where += f" {markup.isolated(place)}" if place else ""
            return f'<li>{link}<span class="who">{where}</span> {text}</li>\n'
        subject = markup.marked_line(doc["subject"] or "(no subject)", marks.within("subject"))
        sender = markup.marked_line(results.sender(doc["from"]), marks.within("from"))
        who = f'{markup.escaped(doc["date"][:10])} {sender}'
        text = self._snippet(doc, marks)
        return (f'<li>{markup.link(to, subject)} <span class="who">{who}{where}</span>'
                f"<br>{text}</li>\n")

    @staticmethod
    def _snippet(doc: dict[str, Any], marks: Marks) -> str:
        """What is shown of a mail's text, or the line of its head in which a field was found."""
        if not marks.finds(doc["text"]) and (head := marks.head_line(doc, SNIPPET)):
            name = head.partition(":")[0].lower()
            return markup.marked_line(head, marks.within(FIELD_OF.get(name, name)))
        return markup.marked_line(marks.context(doc["text"], SNIPPET), marks)

    def _neighbour(self, at: int, one: int, line: str, number: int, query: str) -> str:
        """A line round that of a number; of this one there is no link."""
        to = self._address(f"doc/{at}/{one}", q=query)
        name = markup.link(f"{to}#{ROUND_IT}", str(one)) if one != number else str(one)
        return f"<li>{name} {markup.isolated(line[:SNIPPET])}</li>"

    @staticmethod
    def _told(doc: dict[str, Any], marks: Marks) -> str:
        """What is told of a document beside its text."""
        names = {**{name: name.capitalize() for name in HEAD}, **FULL}
        told = {name: markup.marked_line(str(doc[name]), marks.within(FIELD_OF.get(name, name)))
                for name in names if doc.get(name)}
        return "".join(f"<dt>{names[name]}</dt><dd>{line}</dd>" for name, line in told.items())

    def _document(self, at: int, number: int, query: str) -> str:
        with self._sessions[at].one() as store:
            around = _around(store, number)
            found = [*results.Results().read(store, [number]).newest(1)]
            marks = _marks(store, query)
        if not found:
            raise NoSuchDocument("no such document")
        doc, text = found[0], found[0]["text"]
        rest = f"<p>The first {LONGEST:,} of {len(text):,} characters.</p>" \
            if len(text) > LONGEST else ""
        shown = marks if "date" in doc else marks.of_line()
        if "date" not in doc and len(around) > 1:
            lines = "".join(self._neighbour(at, one, line, number, query) for one, line in around)
            rest += f'<h2 id="{ROUND_IT}">Lines round it</h2><ol>{lines}</ol>'
        return (f"<h2>Document {number}</h2>\n<dl>{self._told(doc, marks)}</dl>\n"
                f"<pre>{markup.marked(text[:LONGEST], shown)}</pre>{rest}")


class Months:
    """The month of each document of a store, read once for as long as the store stays the same."""

    def __init__(self) -> None:
        self._counts: object = None
        self._names: list[str] = [""]
        self._of, self._one = array("H"), threading.Lock()

    def counted(self, found: Found) -> dict[str, int]:
        """How many of the documents that were found each month has."""
        with self._one:
            self._read(found.store)
            names, of = self._names, self._of
        told = Counter(of[number] for number in found.numbers if number < len(of))
        return {names[at]: count for at, count in told.items() if at}

    def _read(self, store: Reader) -> None:
        """Reads the lists of the months, where the store has changed since."""
        counts = store.count()
        if counts == self._counts:
            return
        spans = [*SPANS[1:-1]]
        for _ in ("decades", "years"):
            full = zip(spans, list(store.counts(SIGN + span for span in spans)))
            spans = [inner for span, count in full if count for inner in within(span)]
        of, names = array("H", bytes(2 * counts.next)), [""]
        for month, numbers in zip(spans, store.find_all(SIGN + month for month in spans)):
            if numbers:
                names.append(month)
                for number in numbers:
                    if number < counts.next:  # Others came just now.
                        of[number] = len(names) - 1
        self._of, self._names, self._counts = of, names, counts


def months(hits: Hits, known: list[Months]) -> dict[str, int]:
    """How many hits each month has, as `201005`, from the first that has some to the last. No text
    is read, and no query asked again: `known` has the month of each document of each store."""
    full: Counter[str] = Counter()
    for found, of_store in zip(hits.found, known):
        full.update(of_store.counted(found))
    if not full:
        return {}
    years = range(int(min(full)[:4]), int(max(full)[:4]) + 1)
    every = (f"{year}{month:02}" for year in years for month in range(1, 13))
    return {month: full[month] for month in every if min(full) <= month <= max(full)}
