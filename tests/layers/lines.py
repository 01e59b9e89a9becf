"""Rows for the lower layers, and how they are played.

The files `*.script` here are files of scripts as ../scripts.py reads them; their lines are those of
the program `pk_layers`, whose page (crates/pk_layers/src/main.rt) says what they mean, and which
answers each by itself. In a line

    'new'       stands for the bytes of a text
    1..128      for numbers with commas between
    {00*16}     for 00, sixteen times
    80_00       for 8000
"""

from __future__ import annotations

import os
import pathlib
import re
import subprocess
from concurrent.futures import ThreadPoolExecutor

from .. import scripts

HERE = pathlib.Path(__file__).resolve().parent
LAYERS = os.environ.get("RUBEWOLA_LAYERS",
                        HERE.parent.parent / "crates/pk_layers/out/pk_layers")

_TEXT = re.compile(r"'([^']*)'")
_RANGE = re.compile(r"(?<!\w)(\d+)\.\.(\d+)")


def files() -> list[scripts.File]:
    """All files of rows."""
    return [scripts.file(f"layers/{path.name}") for path in sorted(HERE.glob("*.script"))]


def spelled(text: str) -> str:
    """A line as it is given to the program."""
    text = scripts.spelled(text).replace("_", "")
    text = _TEXT.sub(lambda m: hexed(m[1].encode()), text)
    return _RANGE.sub(lambda m: listed(range(int(m[1]), int(m[2]) + 1)), text)


def hexed(data: bytes) -> str:
    """Bytes as a word."""
    return data.hex().upper() or "-"


def listed(numbers) -> str:
    """Numbers as a word."""
    return ",".join(map(str, numbers)) or "-"


def numbers_in(word: str) -> list[int]:
    """The numbers of a word."""
    return [] if word == "-" else [int(number) for number in word.split(",")]


def played(lines: list[str]) -> subprocess.CompletedProcess[str]:
    """Gives lines to the program."""
    if not os.path.exists(LAYERS):
        raise FileNotFoundError(f"{LAYERS} is not built: `cd crates/pk_layers && rt run < stdin`")
    given = "".join(f"{line}\n" for line in lines)
    return subprocess.run([LAYERS], input=given, capture_output=True, encoding="utf-8",
                          timeout=600, check=False)


def answers(lines: list[str]) -> list[str]:
    """What lines are answered, one after the other."""
    ran = played(lines)
    told = ran.stdout.split("\n")[:-1]
    if ran.returncode or len(told) != len(lines):
        raise RuntimeError(f"the program ended with {ran.returncode}: {ran.stderr[-500:]}")
    return told


def each_answered(groups: list[list[str]]) -> list[list[str]]:
    """What groups of lines are answered, side by side."""
    with ThreadPoolExecutor(len(os.sched_getaffinity(0))) as pool:
        return [*pool.map(answers, groups)]


def shares(lines: list[str]) -> list[str]:
    """What lines are answered that rest on no line before them."""
    length = max(1, -(-len(lines) // len(os.sched_getaffinity(0))))
    groups = [lines[at:at + length] for at in range(0, len(lines), length)]
    return [answer for group in each_answered(groups) for answer in group]


def asked_of(row: scripts.Row) -> list[tuple[scripts.Line, str, str]]:
    """The lines of a row, each as it is given and as it is to be answered."""
    pairs = []
    for line in row.lines:
        asked, _, wanted = spelled(line.text).partition(" => ")
        pairs.append((line, asked, wanted))
    return pairs


def differences(row: scripts.Row) -> str:
    """What is answered otherwise than a row says."""
    pairs = asked_of(row)
    told = answers([asked for _, asked, _ in pairs])
    return "".join(f"{line.file}:{line.number}: {line.text}\n  wanted: {wanted}\n  got:    {got}\n"
                   for (line, _, wanted), got in zip(pairs, told) if got != wanted)
