#!/usr/bin/env python3
"""Draws docs/crates.svg: the crates of crates.txt, each above those that it stands on.

usage: tools/draw_crates.py      at the top of the repository

A crate's row is right below the lowest crate that stands on it. A line is drawn for each crate of
crates.txt that another one names, but where other lines lead there already; lines that lead to the
same crate run together. A box grows with the lines of code in `src/`, which are rounded, so that
few changes draw another picture. The layer of the tests is left out. The same files give the same
bytes: all is reckoned in whole numbers, and nothing depends on the order of a set.

The rows and their order are found as Sugiyama, Tagawa and Toda (1981) do it.
"""
import functools
import pathlib
import re

PICTURE = "docs/crates.svg"
LEFT_OUT = "tests"
# A line that is a comment alone.
COMMENT = re.compile(r"\s*//")
# The line of crates.txt with which a layer begins.
LAYER = re.compile(r"# (\w+)")

# Pixels: the height of a box's head, between rows, beside boxes, between the lines that leave one.
HEAD, BETWEEN, BESIDE, APART, MARGIN = 22, 30, 14, 10, 24
LINES_TO_A_PIXEL = 40  # Lines of code, of the lower part of a box.
LETTER = 73  # The width of a letter in a box, in tenths of a pixel, where the font is a wide one.
SWEEPS = 60  # How often the rows are gone through for better places.

# The layers from left to right at first, before knots change their places: an order from which few
# lines cross.
COLUMNS = ("meaning", "numbers", "engine", "format", "disk", "program")

# The colours of each layer, the lowest first, for light and dark: the head of its boxes, their lower
# part, lines.
COLOURS = {
    "numbers": (("#f6d9a8", "#fcf1dd", "#b0741a"), ("#66481a", "#3b2d17", "#dba64e")),
    "meaning": (("#bfe3c6", "#e6f5e9", "#2f8a4b"), ("#24573a", "#1b3527", "#5fbf83")),
    "disk": (("#c3d7f3", "#e7effb", "#3a6fbd"), ("#27477a", "#1c2d49", "#78a6ea")),
    "format": (("#b9e0e0", "#e3f3f3", "#1f7f80"), ("#1f5152", "#18302f", "#55b7b8")),
    "engine": (("#e3c9ec", "#f5eaf8", "#93479f"), ("#5a3366", "#36233d", "#cd8bda")),
    "program": (("#f3c4c4", "#fbe8e8", "#b8433f"), ("#6e2f2f", "#402222", "#ec8681")),
}
PAPER = (("#ffffff", "#1f2328", "#57606a"), ("#0d1117", "#e6edf3", "#9aa4af"))

LEGEND = (
    "Colours are layers, lowest first: a crate stands on those of its own layer and of lower ones.",
    "Lines lead down, from a crate to those that it stands on; lines to the same crate run "
    "together, in its colour.",
    "There is none where others lead there already, through a third crate: crates.txt has all that "
    "a crate's files name.",
    "The lower part of a box is as high as its crate has lines of code in src/, contracts too, "
    "without blanks and comments;",
    "the number beside the name is rounded to two digits. Left out are the tests' crates, the "
    "player, and libraries from outside.",
)


def layers(top):
    """The crates of crates.txt by their layers, the lowest first, and the libraries that each
    names."""
    found, libraries, layer = {}, {}, None
    for line in top.joinpath("crates.txt").read_text("utf-8").splitlines():
        if head := LAYER.fullmatch(line):
            layer = found.setdefault(head[1], [])
        elif line and not line.startswith("#"):
            name, _, named = line.partition(":")
            layer.append(name)
            libraries[name] = named.split()
    return found, libraries


def lines_of(folder):
    """How many lines of a crate's `src/` are neither blank nor comments."""
    texts = [file.read_text("utf-8") for file in sorted(folder.joinpath("src").rglob("*.rt"))]
    return sum(1 for text in texts for line in text.splitlines()
               if line.strip() and not COMMENT.match(line))


def rounded(number):
    """A number to two digits."""
    step = 10 ** max(0, len(str(number)) - 2)
    return (number + step // 2) // step * step


def reduced(stands_on):
    """What each stands on, but for what it reaches through another one."""
    @functools.cache
    def reached(name):
        return frozenset(stands_on[name]).union(*map(reached, stands_on[name]))
    return {name: [low for low in lows if not any(low in reached(other) for other in lows)]
            for name, lows in stands_on.items()}


def rows_of(stands_on):
    """The row of each crate, from the top: right below the lowest of those that stand on it. One
    that none stands on is as far down as it can be."""
    above = {name: [high for high in stands_on if name in stands_on[high]] for name in stands_on}

    @functools.cache
    def height(name):
        return max((1 + height(low) for low in stands_on[name]), default=0)

    @functools.cache
    def row(name):
        return max((1 + row(high) for high in above[name]), default=highest - height(name))
    highest = max(map(height, stands_on))
    return {name: row(name) for name in stands_on}


class Layout:
    """The knots of each row, from left to right, and their places. A knot is a crate and a row: the
    crate's own, where its box is, or one above it, which the lines to it pass."""

    def __init__(self, stands_on, width):
        self.row = rows_of(stands_on)
        self.box_width = width
        self.rows = [[] for _ in range(max(self.row.values()) + 1)]
        self.up, self.down = {}, {}
        for name in stands_on:
            for row in range(self.first_row(name, stands_on), self.row[name] + 1):
                self.rows[row].append((name, row))
                self.up[name, row], self.down[name, row] = [], []
        for name, lows in stands_on.items():
            for low in lows:
                self.tie((name, self.row[name]), (low, self.row[name] + 1))
        for name, row in [knot for knots in self.rows for knot in knots]:
            if row < self.row[name]:
                self.tie((name, row), (name, row + 1))
        self.put_in_order()
        self.put_in_place()

    def first_row(self, name, stands_on):
        """The highest row that a line to this crate passes, or its own."""
        return min((self.row[high] + 1 for high in stands_on if name in stands_on[high]),
                   default=self.row[name])

    def tie(self, high, low):
        self.down[high].append(low)
        self.up[low].append(high)

    def is_box(self, knot):
        return self.row[knot[0]] == knot[1]

    def crossings(self, left, right, at):
        """How many lines of two knots cross where the one stands left of the other."""
        return sum(at[one] > at[other] for side in (self.up, self.down)
                   for one in side[left] for other in side[right])

    def better(self, knots, at):
        """A row with each knot in turn where its lines cross the fewest others."""
        for knot in list(knots):
            others = [other for other in knots if other != knot]
            here = knots.index(knot)
            cost = sum(self.crossings(knot, other, at) for other in others)
            best = (cost, here, 0)
            for place, other in enumerate(others, 1):
                cost += self.crossings(other, knot, at) - self.crossings(knot, other, at)
                best = min(best, (cost, abs(place - here), place))
            if best[2] != here:
                knots = [*others[:best[2]], knot, *others[best[2]:]]
        return knots

    def put_in_order(self):
        """Moves knots within their rows until no move makes fewer lines cross."""
        for _ in range(SWEEPS):
            before = [list(knots) for knots in self.rows]
            for row in [*range(len(self.rows)), *range(len(self.rows) - 1, -1, -1)]:
                at = {knot: place for knots in self.rows for place, knot in enumerate(knots)}
                self.rows[row] = self.better(self.rows[row], at)
            if self.rows == before:
                break

    def near(self, knot):
        """The knots that one is to be near: a box its neighbours, another knot those of its crate
        too, so that lines are straight."""
        near = self.up[knot] + self.down[knot] or [knot]
        if self.is_box(knot):
            return near
        return near + 2 * [other for other in self.x if other[0] == knot[0]]

    def width(self, knot):
        return self.box_width if self.is_box(knot) else 2

    def put_in_place(self):
        """Gives each knot its middle, as near to those of its neighbours as the others in the row
        allow."""
        self.x = {}
        for knots in self.rows:
            self.x.update(spread(knots, [0] * len(knots), [1] * len(knots), self.width))
        widest = max(self.x[knots[-1]] + self.width(knots[-1]) // 2 for knots in self.rows)
        for sweep in range(SWEEPS):
            for knots in self.rows[::1 if sweep % 2 else -1]:
                wanted = [mean([sum(self.x[other] for other in near), len(near)])
                          for near in map(self.near, knots)]
                weights = [1 if self.is_box(knot) else 8 for knot in knots]
                self.x.update(spread(knots, wanted, weights, self.width, widest))
        left = min(self.x[knot] - self.width(knot) // 2 for knots in self.rows for knot in knots)
        self.x = {knot: x - left + MARGIN for knot, x in self.x.items()}

    def right_end(self):
        return max(x + self.width(knot) // 2 for knot, x in self.x.items())


def spread(knots, wanted, weights, width, end=10**6):
    """The places from 0 to END, nearest to the wanted ones, at which no knots of a row meet: those
    that would are put beside each other about their mean (Ayer and others 1955)."""
    offsets = [width(knots[0]) // 2]
    for left, right in zip(knots, knots[1:]):
        offsets.append(offsets[-1] + (width(left) + width(right)) // 2 + BESIDE)
    blocks = []
    for place, offset, weight in zip(wanted, offsets, weights):
        blocks.append([(place - offset) * weight, weight, 1])
        while len(blocks) > 1 and mean(blocks[-2]) > mean(blocks[-1]):
            last = blocks.pop()
            blocks[-1] = [one + other for one, other in zip(blocks[-1], last)]
    room = end - offsets[-1] - width(knots[-1]) // 2
    starts = [min(max(0, mean(block)), room) for block in blocks for _ in range(block[2])]
    return {knot: start + offset for knot, start, offset in zip(knots, starts, offsets)}


def mean(block):
    """The nearest whole number to a sum over its weight."""
    return (2 * block[0] + block[1]) // (2 * block[1])


def style():
    """The colours, for light and for dark."""
    def rules(mode):
        paper, ink, faint = PAPER[mode]
        yield f".paper {{ fill: {paper} }} text {{ fill: {ink} }} .faint {{ fill: {faint} }}"
        for layer, colours in COLOURS.items():
            head, body, line = colours[mode]
            yield (f".{layer} .head {{ fill: {head} }} .{layer} .body {{ fill: {body} }} "
                   f".{layer} rect, .{layer} path {{ stroke: {line} }}")
    light, dark = ("\n".join(rules(mode)) for mode in (0, 1))
    return (f"text {{ font: 12px system-ui, sans-serif }}\n"
            f"text.name, text.lines {{ font-family: ui-monospace, Menlo, 'DejaVu Sans Mono', "
            f"monospace }}\n.lines {{ text-anchor: end }}\n"
            f"path {{ fill: none; stroke-width: 1.3 }}\n"
            f"{light}\n@media (prefers-color-scheme: dark) {{\n{dark}\n}}")


def box(x, y, width, name, lines, told):
    """A box from its left upper corner on: the name and the lines in its head, and a lower part."""
    body = -(-lines // LINES_TO_A_PIXEL)
    return (f'<title>{told}</title>'
            f'<rect class="head" x="{x}" y="{y}" width="{width}" height="{HEAD}"/>'
            f'<rect class="body" x="{x}" y="{y + HEAD}" width="{width}" height="{body}"/>'
            f'<text class="name" x="{x + 6}" y="{y + 15}">{name}</text>'
            f'<text class="lines" x="{x + width - 6}" y="{y + 15}">{lines:,}</text>')


class Picture:
    """The picture of the repository below a folder."""

    def __init__(self, top):
        found, libraries = layers(top)
        self.layer = {name: layer for layer, names in found.items() for name in names
                      if layer != LEFT_OUT}
        names = sorted(self.layer, key=lambda name: COLUMNS.index(self.layer[name]))
        self.stands_on = reduced({name: [low for low in libraries[name] if low in self.layer]
                                  for name in names})
        self.lines = {name: rounded(lines_of(top / "crates" / name)) for name in names}
        letters = max(len(f"{name} {lines:,}") for name, lines in self.lines.items())
        self.layout = Layout(self.stands_on, LETTER * letters // 20 * 2 + 16)
        self.tops, self.bottoms = self.heights(3 * MARGIN + 18 * len(LEGEND))

    def heights(self, y):
        """Where each row begins and ends."""
        tops, bottoms = [], []
        for knots in self.layout.rows:
            lines = max(self.lines[knot[0]] for knot in knots if self.layout.is_box(knot))
            tops.append(y)
            bottoms.append(y + HEAD - -lines // LINES_TO_A_PIXEL)
            y = bottoms[-1] + BETWEEN
        return tops, bottoms

    def bottom(self, knot):
        """Where the lines of a knot begin."""
        body = -(-self.lines[knot[0]] // LINES_TO_A_PIXEL)
        return self.tops[knot[1]] + HEAD + body if self.layout.is_box(knot) else self.tops[knot[1]]

    def line(self, high, low):
        """From a knot down to the end of its row, and on to a knot of the next."""
        lows = sorted(self.layout.down[high], key=self.layout.x.get)
        x = self.layout.x[high] + (2 * lows.index(low) - len(lows) + 1) * APART // 2
        to, end = self.layout.x[low], self.bottoms[high[1]]
        begin, top = self.bottom(high), self.tops[low[1]]
        return (f"M{x} {begin}V{end}C{x} {(end + top) // 2} {to} {(end + top) // 2} {to} {top}")

    def lines_to(self, name):
        """All lines that lead to a crate."""
        knots = [knot for row in self.layout.rows for knot in row if knot[0] == name]
        path = "".join(self.line(high, knot) for knot in knots for high in self.layout.up[knot])
        return f'<g class="{self.layer[name]}"><path d="{path}"/></g>' if path else ""

    def box_of(self, name):
        knot, width = (name, self.layout.row[name]), self.layout.box_width
        lows = ", ".join(self.stands_on[name])
        told = f"{name}, {self.layer[name]}" + (f": lines lead to {lows}" if lows else "")
        place = self.layout.x[knot] - width // 2, self.tops[knot[1]]
        return (f'<g class="{self.layer[name]}">'
                f"{box(*place, width, name, self.lines[name], told)}</g>")

    def legend(self):
        """The layers with their colours, then what lines and boxes mean."""
        for place, layer in enumerate(COLOURS):
            x = MARGIN + 100 * place
            yield (f'<g class="{layer}"><rect class="head" x="{x}" y="{MARGIN}" width="14" '
                   f'height="14"/><text x="{x + 20}" y="{MARGIN + 12}">{layer}</text></g>')
        for place, words in enumerate(LEGEND):
            y = 2 * MARGIN + 16 + 18 * place
            yield f'<text class="faint" x="{MARGIN}" y="{y}">{words}</text>'

    def svg(self):
        width, height = self.layout.right_end() + MARGIN, self.bottoms[-1] + MARGIN
        described = " ".join(f"{name} on {', '.join(lows)}." if lows else f"{name} on none."
                             for name, lows in self.stands_on.items())
        parts = [
            '<svg xmlns="http://www.w3.org/2000/svg" role="img" aria-labelledby="title desc" '
            f'width="{width}" height="{height}" viewBox="0 0 {width} {height}">',
            '<title id="title">The crates, and what each stands on</title>',
            f'<desc id="desc">{" ".join(LEGEND)} {described}</desc>',
            f"<style>\n{style()}\n</style>",
            f'<rect class="paper" width="{width}" height="{height}"/>',
            *self.legend(),
            *filter(None, map(self.lines_to, self.stands_on)),
            *map(self.box_of, self.stands_on),
        ]
        return "\n".join([*parts, "</svg>", ""])


def main():
    pathlib.Path(PICTURE).write_text(Picture(pathlib.Path(".")).svg(), "utf-8")


if __name__ == "__main__":
    main()
