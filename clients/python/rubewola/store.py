"""A session with a store: the program `pk_find`, asked over a pipe."""

from __future__ import annotations

import fcntl
import os
import stat
import time
from collections import namedtuple

from .errors import (HINTS, REFUSALS, Damaged, Failed, Full, InUse, NoSuchDocument, Refused,
                     numbers_in)
from .programs import Program

TYPE_CHECKING = False
if TYPE_CHECKING:
    from collections.abc import Callable, Iterable, Iterator
    from typing import Any

UNIT = 512  # Bytes.
LEAST_UNITS, MOST_UNITS = 64, 2_147_483_648  # Of a store.
MOST_NUMBER = 4_294_967_295  # No document has this number, nor one behind it.

ENDED = "the program was ended"
DAMAGED = "refused damaged"  # A reply to `show`; that with a text begins with `text `.

# What no reply to an `add` is longer than, and bytes of commands that are handed over at once.
SHORT_REPLY, AT_ONCE = 32, 1_048_576

# Seconds after which a store that nobody has is no longer tried, and after which a wait is told.
LAST_TRY, LONG_WAIT = 1, 1

_MISUSED = 2  # The status of a command line that is refused.
_BEING_MADE = ("bad length", "not a store")  # What a store may be told to be that is being made.
_HELD = ("in use", "disk")  # What one may be that another program has; an older program says `disk`.


class Counts(namedtuple("Counts", ("live", "next"))):
    """How many documents live, and the number of the next."""


class Checked(namedtuple("Checked", ("documents", "next", "segments"))):
    """What a sound store has: committed documents that live, the number of the next, segments."""


class Reader:
    """A store in a file that is searched and shown, open until `close`. It takes no lock and wants
    no right to write: nobody waits for it, and it waits for nobody. Each answer is that of the
    newest commit, so what one command found another may not show any more. Where the program is an
    older one, which has no such session, it has the store for itself, as a `Store` has.

    A command is one line, so a line feed in it is carried as U+000B, which cuts words as it does,
    and `show` gives it back; a U+000B of the text itself comes back as a line feed, too. All other
    text is kept as it is.
    """

    _mode = "rb"  # In which the file is opened where it is asked why the program can't.

    def __init__(self, path: str | os.PathLike[str], wait: float = 0,
                 waiting: Callable[[], None] = lambda: None) -> None:
        """Opens the store; one that another program keeps from being opened is tried again for
        `wait` seconds, and `waiting` called once when that takes long."""
        self._busy, self.path = False, os.path.abspath(path)
        _when_free(self.path, self._open, wait, waiting, self._mode)

    def _open(self) -> None:
        self._file, self.is_shared = _file_at(self.path), True
        try:
            self._begin("read")
        except Failed:
            if self._program.status != _MISUSED:
                raise
            self.is_shared = False  # An older program has no such session.
            if not os.access(self.path, os.W_OK) and os.path.exists(self.path):
                open(self.path, "r+b").close()  # The system tells why not.
            self._begin("run")

    def _begin(self, command: str) -> None:
        self._program, self._awaited = Program(command, self.path), 0
        self._in_flight = self._program.in_flight()
        try:
            self.count()
        except Refused as refused:
            self.close()
            raise Failed(refused.reason) from None

    @property
    def is_current(self) -> bool:
        """Whether the session goes on, with the file that stands at the path now."""
        return not self._program.has_ended() and self._file == _file_at(self.path)

    def close(self, *_: object) -> None:
        """Ends the session."""
        if self._program.status is None:
            self._send(b"quit\n")
        self._program.ended()

    __exit__ = close

    def __enter__(self) -> Reader:
        return self

    def ask(self, command: str) -> str:
        """The reply to a command; a refusal is raised."""
        return list(self.ask_all([command]))[0]

    def ask_all(self, commands: Iterable[str]) -> Iterator[str]:
        """The replies to many commands, up to a refusal, which is raised. Commands are sent ahead
        of the replies as far as no side can come to wait for the other, so some behind a refused
        one may be done. Until all replies are read the store takes no other command."""
        return self._ask_all(map(_line, commands), len)

    def _ask_all(self, lines: Iterable[bytes], weight: Callable[[bytes], int],
                 longest: int = -1, is_whole: bool = True) -> Iterator[str]:
        # So much is on its way as fits into the pipes: neither side comes to wait for the other,
        # which may itself be waiting for its replies to be read. A command with a short reply
        # counts as that, which waits to be read; another as itself, which waits to be answered.
        if self._busy or self._program.status is not None:
            raise Failed("busy" if self._busy else "closed").of(self.path)
        self._busy, before = True, 0
        try:
            for batch, size in _batches(lines, weight, self._in_flight // 2):
                if before + size > self._in_flight:
                    yield from self._replies(0, longest, is_whole)
                self._send(b"".join(batch))
                self._awaited += len(batch)
                yield from self._replies(len(batch), longest, is_whole)
                before = size
            yield from self._replies(0, longest, is_whole)
        finally:
            while self._awaited and self._program.status is None:
                self._awaited -= 1
                self._program.output.readline()
            self._busy = False

    def _send(self, data: bytes) -> None:
        try:
            self._program.input.write(data)
            self._program.input.flush()
        except BrokenPipeError:
            pass  # Where the program has ended, the reply that does not come tells why.

    def _replies(self, left: int, longest: int, is_whole: bool) -> Iterator[str]:
        """The replies that are awaited, but for so many; of each so many bytes. Where all need not
        be there, that to what asks for a document that is not is empty, and of one that cannot be
        read DAMAGED."""
        while self._awaited > left:
            self._awaited -= 1
            try:
                reply = self._reply(longest)
            except NoSuchDocument:
                if is_whole:
                    raise
                reply = ""
            except Damaged:
                if is_whole:
                    raise
                reply = DAMAGED
            yield reply

    def _reply(self, longest: int = -1) -> str:
        """A reply, or so many bytes of it; the rest is passed over."""
        line = last = self._program.output.readline(longest)
        while last and not last.endswith(b"\n"):
            last = self._program.output.readline(AT_ONCE)
        if not last:
            raise Failed(_reason(self._program)).of(self.path)
        line = line if line.endswith(b"\n") else line + b"\n"
        reply = line[:-1].decode()
        if reply.startswith("refused "):
            reason = reply[len("refused "):]
            kind = next(kind for words, kind in REFUSALS.items() if reason.startswith(words))
            raise kind(reason).of(self.path) if reason in HINTS or kind is Full else kind(reason)
        return reply

    def find(self, query: str) -> list[int]:
        """The numbers of the documents that satisfy a query, rising."""
        return list(self.find_all([query]))[0]

    def find_all(self, queries: Iterable[str]) -> Iterator[list[int]]:
        """What satisfies each of many queries, many on their way at once."""
        for reply in self.ask_all(f"find {query}" for query in queries):
            yield [int(number) for number in reply.split()[2:]]

    def counts(self, queries: Iterable[str]) -> Iterator[int]:
        """How many documents satisfy each of many queries; their numbers are not read."""
        lines = (_line(f"find {query}") for query in queries)
        return (int(reply.split(" ", 2)[1].rstrip(":"))
                for reply in self._ask_all(lines, len, SHORT_REPLY * 4))

    def has(self, query: str) -> bool:
        """Whether a document satisfies a query."""
        return any(self.counts([query]))

    def show(self, number: int) -> str:
        """The text of a document."""
        return list(self.show_all([number]))[0]

    def show_all(self, numbers: Iterable[int]) -> Iterator[str]:
        """The texts of documents, many on their way at once."""
        return map(shown, self.ask_all(map(_show, numbers)))

    def replies(self, numbers: Iterable[int]) -> Iterator[str]:
        """The replies to `show`, which `shown` reads; an empty one where there is no such document,
        or none any more, and DAMAGED where its text cannot be read."""
        return self._ask_all(map(_line, map(_show, numbers)), len, is_whole=False)

    def count(self) -> Counts:
        """How many documents live, and the number of the next."""
        return Counts(*numbers_in(self.ask("count")))


class Store(Reader):
    """A store in a file that is changed, too, open until `close`. One program at a time has it.
    What is not committed is lost at `close`, in a `with` block at its end.
    """

    _mode = "r+b"

    def _open(self) -> None:
        self._file, self.is_shared = _file_at(self.path), False
        self._begin("run")

    def __enter__(self) -> Store:
        return self

    @staticmethod
    def check(path: str | os.PathLike[str], wait: float = 0,
              waiting: Callable[[], None] = lambda: None) -> Checked:
        """Reads all that is committed in a store and compares it, which takes about as long as it
        took to index its documents. A store that is not sound is Failed as `damaged`."""
        path = os.path.abspath(path)

        def checked() -> Checked:
            program = Program("check", path)
            return Checked(*numbers_in(_printed(program)))
        return _when_free(path, checked, wait, waiting)

    @staticmethod
    def grow(path: str | os.PathLike[str], units: int, wait: float = 0,
             waiting: Callable[[], None] = lambda: None) -> bool:
        """Gives a store that no program has open so many units of 512 bytes; whether it had fewer.
        Whatever ends this in its midst, the store has those that it had, or these, and all that is
        committed. One that has more is Failed as `shorter`."""
        path = os.path.abspath(path)

        def grown() -> bool:
            return _printed(Program("grow", path, "--units", str(units))).startswith("grown ")
        try:
            return _when_free(path, grown, wait, waiting)
        except Failed as failed:
            if failed.reason == "disk":
                _tell_of_limit(path, units)
            raise

    @classmethod
    def create(cls, path: str | os.PathLike[str], units: int) -> Store:
        """Makes a file of so many units of 512 bytes with an empty store, and opens it."""
        make(path, units)
        return cls(path)

    def add(self, text: str) -> int:
        """Adds a document, and gives its number."""
        return list(self.add_all([text]))[0]

    def add_all(self, texts: Iterable[str | bytes]) -> Iterator[int]:
        """Adds documents, many on their way at once, and gives their numbers."""
        lines = (b"add %b\n" % _one_line(text) for text in texts)
        return (int(reply[6:]) for reply in self._ask_all(lines, lambda _: SHORT_REPLY))

    def delete(self, number: int) -> None:
        """Deletes a document."""
        self.ask(f"delete {min(number, MOST_NUMBER)}")

    def commit(self) -> None:
        """Writes what is uncommitted to the disk. Once this returns, it stays."""
        self.ask("commit")

    def merge(self) -> None:
        """Puts one segment in the place of all, without what was deleted."""
        self.ask("merge")

    def tidy(self) -> None:
        """Puts one segment in the place of the eight neighbours with the least bytes."""
        self.ask("tidy")


def _batches(lines: Iterable[bytes], weight: Callable[[bytes], int],
             most: int) -> Iterator[tuple[list[bytes], int]]:
    """Lines to be sent at once, of at most such a weight, if one alone has not more, with their
    weight."""
    held: list[bytes] = []
    size = length = 0
    for line in lines:
        more = weight(line)
        if held and (size + more > most or length + len(line) > AT_ONCE):
            yield held, size
            held, size, length = [], 0, 0
        held.append(line)
        size, length = size + more, length + len(line)
    if held:
        yield held, size


def _when_free(path: str, attempt: Callable[[], Any], wait: float,
               waiting: Callable[[], None], mode: str = "r+b") -> Any:
    """What an attempt gives that another program may be in the way of: it may have the store, or be
    making it."""
    if os.path.exists(path) and stat.S_ISFIFO(os.stat(path).st_mode):
        raise Failed("bad length").of(path)  # To open it waits for whoever writes into it.
    begin = time.monotonic()
    turn, is_again = _Turn(path, mode, begin + wait, waiting), False
    while True:
        try:
            return attempt()
        except Failed as failed:
            if failed.reason not in _HELD and (is_again or failed.reason not in _BEING_MADE):
                raise failed.of(path)
            is_again = failed.reason not in _HELD
            turn.wait()
            if time.monotonic() > max(begin + wait, begin + LAST_TRY):
                raise failed.of(path)


class _Turn:
    """Waiting for a store that another program has: for its lock, which each program that may change
    the store holds, since another start of the program would open the store each time."""

    def __init__(self, path: str, mode: str, ends: float, waiting: Callable[[], None]) -> None:
        self._path, self._mode, self._ends, self._waiting = path, mode, ends, waiting
        self._told = time.monotonic() + LONG_WAIT

    def wait(self) -> None:
        """Returns when nobody has the store; raises where one has it for too long, or where the
        system refuses the file, in its words."""
        with open(self._path, self._mode) as file:
            while True:
                try:
                    fcntl.flock(file, fcntl.LOCK_EX | fcntl.LOCK_NB)
                    return
                except BlockingIOError:
                    now = time.monotonic()
                if now >= self._ends:
                    raise InUse().of(self._path)
                if now >= self._told:
                    self._told = float("inf")
                    self._waiting()
                time.sleep(0.01)


def _file_at(path: str) -> tuple[int, int] | None:
    """Which file is at a path now, if there is one."""
    try:
        told = os.stat(path)
    except OSError:
        return None
    return told.st_dev, told.st_ino


def make(path: str | os.PathLike[str], units: int) -> None:
    """Makes a file of so many units of 512 bytes with an empty store, which nobody but its owner
    may read: a store has what was mailed."""
    path = os.path.abspath(path)
    is_new, mask = not os.path.lexists(path), os.umask(0o077)
    try:
        program = Program("create", path, "--units", str(units))
    finally:
        os.umask(mask)
    try:
        _printed(program)
    except Failed as failed:
        if is_new and failed.reason != "exists" and os.path.lexists(path):
            os.unlink(path)
        if failed.reason == "disk":
            _tell_of_folder(os.path.dirname(path))
            _tell_of_limit(path, units)
        raise failed.of(path)


def _tell_of_folder(folder: str) -> None:
    """Raises what is wrong with a folder, if the system tells."""
    os.stat(folder)
    if not os.access(folder, os.W_OK):
        raise PermissionError(f"no right to write to {folder}")


def _tell_of_limit(path: str, units: int) -> None:
    """Raises that no file may have so many units, where that is so."""
    import resource
    most = resource.getrlimit(resource.RLIMIT_FSIZE)[0]
    if most != resource.RLIM_INFINITY and most < units * UNIT:
        raise OSError(f"{path}: {units * UNIT:,} bytes are wanted, and no file may have more than "
                      f"{most:,} (`ulimit -f`)")


def _printed(program: Program) -> str:
    """What a program prints that answers no lines."""
    told = program.output.readline().decode(errors="replace")
    reason = _reason(program)
    if program.status:
        raise Failed(reason)
    return told


def _reason(program: Program) -> str:
    """Why a program ended."""
    reason = program.ended().partition("\n")[0]
    return reason.removeprefix("pk_find: ") or ENDED


def _one_line(text: str | bytes) -> bytes:
    """A text as it is carried: no text, of whatever type, may end its line."""
    data = text if isinstance(text, bytes) else text.encode()
    return data.replace(b"\n", b"\v") if b"\n" in data else data


def _line(command: str) -> bytes:
    return _one_line(command) + b"\n"


def _show(number: int) -> str:
    return f"show {min(number, MOST_NUMBER)}"


def shown(reply: str) -> str:
    """The text in the reply to a `show`."""
    text = reply.removeprefix("text ").replace("\v", "\n")
    if "\\" not in text:
        return text
    return "\\".join(piece.replace("\\n", "\n") for piece in text.split("\\\\"))
