"""Files of scripts, and how they are played.

A file is made of blocks: a line at the margin, and behind it the lines that are indented. Empty
lines and those that begin with `#` are left out.

    prelude NAME        lines that others use
    script TITLE        a script, which begins without a disk
    rows TITLE          a script for each of its lines `row NAME: A | B`, with A for {1}, B for {2}
    sweep TITLE         a script in which each call behind `!fail each` is to fail: sweeps.py

| line of a block | what it stands for |
|---|---|
| `shows PROMISE` | which of the promises of README.md the block shows |
| `use NAME | A | B` | the lines of a prelude of the file or of common.script, with A for {1} |
| `for n in A to B` | the lines indented below it, once for each number, which `{n}` names |
| `on pages`, `on each`, `on each, and two pages` | the settings; else they go by `settings_of` |
| `holds N TEXT`, `holds next N` | what is in a store that was made by hand, for sweeps |

`{A to B}` stands for the numbers from A to B. All other lines are the player's, whose page
(crates/pk_player/src/main.rt) says what they mean; blanks in what `!calls` wants don't count.
"""

from __future__ import annotations

import os
import pathlib
import re
import subprocess
from collections.abc import Iterator
from concurrent.futures import ThreadPoolExecutor
from typing import NamedTuple

HERE = pathlib.Path(__file__).resolve().parent
PLAYER = os.environ.get("RUBEWOLA_PLAYER", HERE.parent / "crates/pk_player/out/pk_player")
# For a player that is not proved, which is some times slower.
IS_QUICK = os.environ.get("RUBEWOLA_QUICK") == "1"

# How many decoded blocks stores keep, and how many pages a page cache below them keeps: neither
# changes an answer.
BLOCKS = ("!blocks 0", "!blocks 1", "!blocks 2", "!blocks 256")
PAGES = ("!pages 1", "!blocks 2\n!pages 64")

KINDS = ("prelude", "script", "rows", "sweep")
_USE = re.compile(r"use ([^|]+?)((?: \| [^|]+)*)")
_FOR = re.compile(r"for n in (\d+) to (\d+)")
_ROW = re.compile(r"row ([^:]+): (.+)")
_RANGE = re.compile(r"\{(\d+) to (\d+)\}")
_CALLS = re.compile(r"!calls => (.*)")
_REPEATED = re.compile(r"\{([^{}*]*)\*(\d+)\}")


class Line(NamedTuple):
    """A line, its file, its number in it, and how far it is indented."""

    file: str
    number: int
    text: str
    depth: int

    def fault(self, why: str) -> ValueError:
        """What is wrong with it."""
        return ValueError(f"{self.file}:{self.number}: {why}: {self.text}")


class Row(NamedTuple):
    """A script or a sweep, with preludes and repeated lines in their places."""

    file: str
    title: str
    kind: str
    promise: str
    settings: tuple[str, ...]
    lines: list[Line]

    @property
    def texts(self) -> list[str]:
        """Its lines, as the player is given them."""
        return [line.text for line in self.lines]


class File:
    """A file of scripts: its preludes and its rows, with so many rounds of each `for` at the most."""

    def __init__(self, name: str, rounds: int | None = None) -> None:
        self.name = name
        self.rounds = rounds
        self.preludes: dict[str, list[Line]] = {}
        self._blocks: list[tuple[Line, list[Line]]] = []
        for line in self._lines():
            if line.depth:
                self._blocks[-1][1].append(line)
            else:
                self._blocks.append((line, []))
        for head, lines in self._blocks:
            kind, _, title = head.text.partition(" ")
            if kind not in KINDS or not title:
                raise head.fault(f"a block begins with one of {', '.join(KINDS)}, and a title")
            if kind == "prelude":
                self.preludes[title] = lines

    def _lines(self) -> Iterator[Line]:
        for number, text in enumerate((HERE / self.name).read_text("utf-8").splitlines(), 1):
            stripped = text.strip(" ")
            if stripped and not stripped.startswith("#"):
                depth = len(text) - len(text.lstrip(" "))
                yield Line(f"tests/{self.name}", number, stripped, depth)

    @property
    def rows(self) -> list[Row]:
        """Its scripts and sweeps."""
        made = [row for head, lines in self._blocks for row in self._rows(head, lines)]
        titles = [row.title for row in made]
        if twice := {title for title in titles if titles.count(title) > 1}:
            raise ValueError(f"{self.name}: there are two of {twice}")
        return made

    def row(self, title: str) -> Row:
        """The script or the sweep of a title."""
        return next(row for row in self.rows if row.title == title)

    def _rows(self, head: Line, lines: list[Line]) -> Iterator[Row]:
        kind, _, title = head.text.partition(" ")
        if kind in ("script", "sweep"):
            yield self._row(head, kind, title, lines, [])
        if kind == "rows":
            body = [line for line in lines if not line.text.startswith("row ")]
            for line in lines:
                if line.text.startswith("row "):
                    found = _ROW.fullmatch(line.text)
                    if not found:
                        raise line.fault("a row is `row NAME: A | B`")
                    values = found[2].split(" | ")
                    yield self._row(head, "script", f"{title}, {found[1]}", body, values)

    def _row(self, head: Line, kind: str, title: str, lines: list[Line], values: list[str]) -> Row:
        spelled = [*self._spelled(lines, values)]
        shown = [line.text for line in spelled if line.text.startswith("shows ")]
        if len(shown) != 1:
            raise head.fault("it has one line `shows PROMISE`")
        places = [line.text for line in spelled if line.text.startswith("on ")]
        spelled = [line for line in spelled if not line.text.startswith(("shows ", "on "))]
        if kind == "script":
            spelled = [line for line in spelled if not line.text.startswith("holds ")]
        settings = settings_of([line.text for line in spelled], places)
        return Row(self.name, title, kind, shown[0].partition(" ")[2], settings, spelled)

    def _prelude(self, line: Line, name: str) -> list[Line]:
        if name in self.preludes:
            return self.preludes[name]
        if self.name != COMMON:
            return file(COMMON)._prelude(line, name)
        raise line.fault("there is no such prelude")

    def _spelled(self, lines: list[Line], values: list[str]) -> Iterator[Line]:
        waiting = [line._replace(text=_filled(line.text, values)) for line in lines][::-1]
        while waiting:
            line = waiting.pop()
            if found := _USE.fullmatch(line.text):
                yield from self._spelled(self._prelude(line, found[1]), found[2].split(" | ")[1:])
            elif found := _FOR.fullmatch(line.text):
                body = []
                while waiting and waiting[-1].depth > line.depth:
                    body.append(waiting.pop())
                for number in [*range(int(found[1]), int(found[2]) + 1)][:self.rounds]:
                    lines = [one._replace(text=one.text.replace("{n}", str(number)))
                             for one in body]
                    yield from self._spelled(lines, [])
            else:
                yield line._replace(text=_counted(line.text))


def _filled(text: str, values: list[str]) -> str:
    for place, value in enumerate(values, 1):
        text = text.replace(f"{{{place}}}", value.strip())
    return text


def _counted(text: str) -> str:
    text = _RANGE.sub(lambda m: " ".join(map(str, range(int(m[1]), int(m[2]) + 1))), text)
    if found := _CALLS.fullmatch(text):
        return f"!calls => {found[1].replace(' ', '')}"
    return text


def spelled(text: str) -> str:
    """A line with each `{c*n}` spelled out, as the player does."""
    return _REPEATED.sub(lambda m: m[1] * int(m[2]), text)


def settings_of(texts: list[str], places: list[str]) -> tuple[str, ...]:
    """The settings of a script. Below a page cache other calls are made, so one that says which
    call fails, or which are made, is played on none, unless it says so."""
    if places:
        return {"on pages": PAGES, "on each": BLOCKS + PAGES,
                "on each, and two pages": (*BLOCKS, *PAGES, "!pages 2")}[places[0]]
    is_numbered = any(text.startswith(("!fail ", "!stop ", "!calls", "!reads")) for text in texts)
    return BLOCKS if is_numbered and "!fail each" not in texts else BLOCKS + PAGES


COMMON = "common.script"
_READ: dict[str, File] = {}


def file(name: str) -> File:
    """A file of scripts, read once."""
    if name not in _READ:
        _READ[name] = File(name)
    return _READ[name]


def files() -> list[File]:
    """All files of scripts."""
    return [file(path.name) for path in sorted(HERE.glob("*.script"))]


def input_of(row: Row, setting: str) -> str:
    """What the player is given for a script in a setting: each line has its file and number."""
    given, last = [f"!script {row.title}", setting], None
    for line in row.lines:
        if last is None or (line.file, line.number) != (last.file, last.number + 1):
            given.append(f"!at {line.file} {line.number}")
        given.append(line.text)
        last = line
    return "\n".join(given) + "\n"


def _shares(scripts: list[str]) -> list[list[str]]:
    """The scripts in runs, one for each processor, or more of them where they are many."""
    length = max(1, min(200, -(-len(scripts) // len(os.sched_getaffinity(0)))))
    return [scripts[at:at + length] for at in range(0, len(scripts), length)]


def _played(scripts: list[str], *options: str) -> list[subprocess.CompletedProcess[str]]:
    """Plays what the player is given for scripts, side by side."""
    if not os.path.exists(PLAYER):
        raise FileNotFoundError(f"{PLAYER} is not built: `cd crates/pk_player && rt run < stdin`")

    def play(share: list[str]) -> subprocess.CompletedProcess[str]:
        return subprocess.run([PLAYER, *options], input="".join(share), capture_output=True,
                              encoding="utf-8", timeout=600, check=False)
    with ThreadPoolExecutor(len(os.sched_getaffinity(0))) as pool:
        return [*pool.map(play, _shares(scripts))]


def differences(scripts: list[str]) -> str:
    """What the player tells of lines that are answered otherwise than the scripts say."""
    passed, told = 0, []
    for ran in _played(scripts):
        *lines, last = ran.stdout.splitlines(keepends=True) or [""]
        told += lines
        counts = re.fullmatch(r"(\d+) passed, \d+ failed\n", last)
        if not counts or ran.returncode not in (0, 1):
            return f"{''.join(told)}{last}{ran.stderr}the player ended with {ran.returncode}\n"
        passed += int(counts[1])
    if not told and passed != len(scripts):
        return f"{passed} of {len(scripts)} scripts were played\n"
    return "".join(told)


def is_asked(text: str) -> bool:
    """Whether the player answers a line."""
    return bool(text) and not text.startswith(("#", "!script ", "!at ", "!left"))


def answers(scripts: list[list[str]]) -> list[list[str]]:
    """What the lines of scripts are answered."""
    given = ["".join(f"{text}\n" for text in ("!script", *script)) for script in scripts]
    told = [line.removeprefix("= ") for ran in _played(given, "--tell")
            for line in ran.stdout.split("\n")[:-1]]
    if len(told) != sum(len(script) for script in scripts):
        raise RuntimeError("the player ended before the last line")
    waiting = iter(told)
    return [[next(waiting) for _ in script] for script in scripts]
