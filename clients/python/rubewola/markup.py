"""HTML of the page: foreign texts in it, bars of months, the frame, and how it looks, at the
browser's font sizes and light or dark as the system is.
"""

from __future__ import annotations

import html

from .queries import FIELDS, OPERATORS, plain

TYPE_CHECKING = False
if TYPE_CHECKING:
    from collections.abc import Callable

    from .marks import Marks

HTML, CSS = "text/html; charset=utf-8", "text/css; charset=utf-8"
WIDTH, HEIGHT, FOOT = 600, 60, 16  # Of the bars, in units of the picture; labels stand in the foot.
_LEAST = 1  # What the bar of a single hit is high.
_LABELS = 12  # There is room for so many years.
_HINT = f"fields: {': '.join(FIELDS)}:, operators: {' '.join(OPERATORS)}"


def escaped(text: object) -> str:
    """A text as itself: no tag, no end of an attribute, and nothing that steers, as the signs of a
    direction."""
    return html.escape(plain(str(text)))


def isolated(text: object) -> str:
    """A foreign text, which turns round nothing that stands beside it."""
    return f"<bdi>{escaped(text)}</bdi>"


def marked(text: str, marks: Marks) -> str:
    """A text with the words of a query marked."""
    return "".join(f"<mark>{escaped(piece)}</mark>" if is_word else escaped(piece)
                   for piece, is_word in marks.pieces(text))


def marked_line(text: str, marks: Marks) -> str:
    """The same, which turns round nothing that stands beside it."""
    return f"<bdi>{marked(text, marks)}</bdi>"


def told(text: str) -> str:
    """What is told of a query, with a caret under a place of it."""
    return f'<pre class="told">{escaped(text)}</pre>'


def link(to: str, inner: str) -> str:
    """HTML as a link to an address of this page."""
    return f'<a href="{escaped(to)}">{inner}</a>'


def page(top: str, query: str, body: str) -> str:
    """A page with a box that has a query, below an address."""
    return (
        '<!DOCTYPE html>\n<html lang="en"><meta charset="utf-8">'
        '<meta name="viewport" content="width=device-width">'
        f'<title>{escaped(query or "Rubewola")}</title>'
        f'<link rel="stylesheet" href="{escaped(top)}style.css">\n'
        f'<header><h1>{escaped(f"Search for {query}" if query else "Search")}</h1>'
        f'<form action="{escaped(top)}" role="search"><label for="query">Query</label>'
        f'<input type="search" id="query" name="q" value="{escaped(query)}" maxlength="4096" '
        f'dir="auto" title="{_HINT}" autofocus><button>Search</button></form></header>\n'
        f"<main>{body}</main></html>\n")


def _spelled(month: str) -> str:
    return f"{month[:4]}-{month[4:]}"


def drawn(counts: dict[str, int], address: Callable[[str], str]) -> str:
    """Bars, each a link to the address of its month; none where there are not several months."""
    if len(counts) < 2:
        return ""
    step, most = WIDTH / len(counts), max(counts.values())
    bars = (link(address(_spelled(month)), _bar(at * step, step, count, most, _spelled(month)))
            for at, (month, count) in enumerate(counts.items()) if count)
    return (f'<svg class="bars" viewBox="0 0 {WIDTH} {HEIGHT + FOOT}" role="group" '
            f'aria-label="hits by month">{"".join(bars)}{_labels([*counts], step)}</svg>\n')


def _bar(left: float, step: float, count: int, most: int, name: str) -> str:
    """A bar before a room as high as the highest, so that it is easily met."""
    high, wide = max(HEIGHT * count / most, _LEAST), f'{step * .9:.2f}'
    return (f"<title>{escaped(name)}: {count:,}</title>"
            f'<rect class="room" x="{left:.2f}" y="0" width="{wide}" height="{HEIGHT}"/>'
            f'<rect x="{left:.2f}" y="{HEIGHT - high:.2f}" width="{wide}" height="{high:.2f}"/>')


def _labels(names: list[str], step: float) -> str:
    """The years, or so many of them as there is room for."""
    starts = [(at, name[:4]) for at, name in enumerate(names) if name.endswith("01")]
    every = -(-len(starts) // _LABELS) or 1
    return "".join(f'<text x="{at * step:.2f}" y="{HEIGHT + FOOT - 3}">{year}</text>'
                   for at, year in starts[::every])


STYLE = """\
:root { color-scheme: light dark; --ink: #1b1b1b; --paper: #fff; --dim: #595959; --line: #ccc;
  --link: #0b4f9e; --seen: #5b3b8c; --mark: #ffe58a; --bar: #7aa2d6; --bad: #a00000 }
@media (prefers-color-scheme: dark) {
  :root { --ink: #e6e6e6; --paper: #181818; --dim: #aaa; --line: #444; --link: #8ab8ff;
    --seen: #c0a5ec; --mark: #6b5800; --bar: #44689a; --bad: #ff9c9c } }
body { font: 1rem/1.45 system-ui, sans-serif; max-width: 56rem; margin: 1.5rem auto;
  padding: 0 1rem; color: var(--ink); background: var(--paper); overflow-wrap: anywhere }
form { display: flex; gap: .5rem }
input { flex: 1; min-width: 0; font: inherit; padding: .4rem .6rem }
button { font: inherit; padding: .4rem 1rem }
a { color: var(--link) }
a:visited { color: var(--seen) }
mark { background: var(--mark); color: inherit }
form label { padding: .4rem 0 }
h1 { font-size: 1.1rem; margin: 0 0 .4rem }
h2 { font-size: 1rem; margin: 1.2rem 0 .4rem }
/* The bars are seen above the hits, and stand behind them for who goes from link to link. */
main { display: flex; flex-direction: column }
main > h2, main > .told { order: -2 }
main > .bars { order: -1 }
ol { list-style: none; padding: 0 }
li { margin: 0 0 1.1rem }
.who, dt, nav { color: var(--dim) }
.told { color: var(--bad) }
svg { width: 100%; height: auto; display: block }
rect { fill: var(--bar) }
.room { fill: transparent }
a:hover rect, a:focus rect { fill: var(--link) }
a:hover .room, a:focus .room { fill: var(--line) }
text { font-size: 9px; fill: var(--dim) }
pre { white-space: pre-wrap; unicode-bidi: plaintext; font: .875rem/1.4 ui-monospace, monospace }
main > pre { border-top: 1px solid var(--line); padding-top: 1rem }
main > .told { border: 0; padding: 0 }
dl { display: grid; grid-template-columns: auto 1fr; gap: 0 1rem }
dd { margin: 0 }
@media (max-width: 36rem) { text { font-size: 15px } }
"""
