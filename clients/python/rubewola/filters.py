"""The text of attached files: of texts and pages by itself, of others by the programs of a table.

Such a program reads foreign bytes. So it is given a time, a memory and room for what it prints,
runs in an empty folder and with an environment of its own, and has no network where the system lets
`unshare` take it. It reads the file at its standard input, and prints text in UTF-8. One that fails
leaves the mail as it would be without.
"""

from __future__ import annotations

import os
import select
import shutil
import signal
import subprocess
import tempfile
import time
from collections import Counter
from collections.abc import Callable, Iterable, Iterator
from contextlib import suppress
from functools import lru_cache

from . import documents
from .mime import Part
from .texts import decoded

SECONDS, MAIL_SECONDS = 20.0, 60.0  # Of a program, and of all for one mail.
CPU_SECONDS, MEMORY_KB, FILE_BLOCKS, OPEN_FILES = 15, 1_048_576, 131_072, 256
MOST_BYTES = 262_144  # Of what a program prints, and of a text.
MOST_FILES = 16  # Of a mail.
MOST_LATE = 3  # A program that was too late as often in a row is asked no more.
_LIMITS = (f"ulimit -c 0; ulimit -t {CPU_SECONDS}; ulimit -v {MEMORY_KB}; ulimit -f {FILE_BLOCKS}; "
           f'ulimit -n {OPEN_FILES}; exec "$@"')
# Without a network, and with processes of its own, which end with the first of them.
_SHUT = ("unshare", "--map-root-user", "--net", "--pid", "--fork", "--kill-child", "--")
_PATH = "/usr/local/bin:/usr/bin:/bin"
_late: Counter[tuple[str, ...]] = Counter()


class Failed(Exception):
    """Why a program gave no text."""


@lru_cache(maxsize=1)
def shut() -> tuple[str, ...]:
    """What takes the network from a program, where the system lets it."""
    with suppress(OSError, subprocess.SubprocessError):
        subprocess.run([*_SHUT, "true"], check=True, timeout=SECONDS, stdin=subprocess.DEVNULL,
                       stdout=subprocess.DEVNULL, stderr=subprocess.DEVNULL)
        return _SHUT
    return ()


def filtered(command: Iterable[str], data: bytes, ends: float) -> str:
    """The text that a program prints of a file, by a moment of the clock."""
    command = tuple(command)
    if _late[command] >= MOST_LATE:
        raise Failed(f"{command[0]} was too late {MOST_LATE} times")
    ends = min(ends, time.monotonic() + SECONDS)
    with tempfile.TemporaryFile() as file, tempfile.TemporaryDirectory() as folder:
        file.write(data)
        file.seek(0)
        own = {"PATH": os.environ.get("PATH", _PATH), "LANG": "C.UTF-8", "HOME": folder,
               "TMPDIR": folder}
        if not shutil.which(command[0], path=own["PATH"]):
            raise Failed(f"there is no program {command[0]}")
        line = [*shut(), "sh", "-c", _LIMITS, "sh", *command]
        with subprocess.Popen(line, stdin=file, cwd=folder, stdout=subprocess.PIPE, env=own,
                              stderr=subprocess.DEVNULL, start_new_session=True) as process:
            try:
                printed, is_whole = _printed(process, ends)
            except (TimeoutError, subprocess.TimeoutExpired):
                _late[command] += 1
                raise Failed(f"{command[0]} took too long") from None
            finally:
                with suppress(ProcessLookupError):
                    os.killpg(process.pid, signal.SIGKILL)
        if is_whole and process.returncode:
            raise Failed(f"{command[0]} ended with status {process.returncode}")
    _late[command] = 0
    return decoded(printed, "utf-8").replace("\f", "\n").replace("\r\n", "\n")


def _printed(process: subprocess.Popen[bytes], ends: float) -> tuple[bytes, bool]:
    """What a process prints, and whether that is all."""
    printed, poll = b"", select.poll()
    poll.register(process.stdout, select.POLLIN)
    while len(printed) < MOST_BYTES:
        left = ends - time.monotonic()
        if left <= 0 or not poll.poll(left * 1_000):
            raise TimeoutError
        piece = os.read(process.stdout.fileno(), MOST_BYTES - len(printed))
        if not piece:
            process.wait(max(ends - time.monotonic(), 0.1))
            return printed, True
        printed += piece
    return printed, False


def texts(parts: list[Part], told_text: Callable[[Part], str]) -> Iterator[tuple[str, str]]:
    """The text of each attached file that is chosen for this load, with its name before it, or why
    there is none. `told_text` gives the text of a part that is one."""
    commands = documents.chosen().filters
    ends = time.monotonic() + MAIL_SECONDS
    for part in parts[:MOST_FILES]:
        name = " ".join(part.file_name.split()) or part.kind
        try:
            if part.kind in commands:
                text = filtered(commands[part.kind], part.data, ends)
            elif part.kind.startswith("text/"):
                text = told_text(part)[:MOST_BYTES]
            else:
                continue
        except Failed as failed:
            yield "", f"{name}: {failed}"
        else:
            if text.strip():
                yield f"[{name}]\n{text.strip()}\n", ""
