"""The program `pk_find`, started with pipes to its input, from its output and from its errors."""

from __future__ import annotations

import fcntl
import os

LEAST_PIPE = 4_096  # Bytes that fit into every pipe.
WANTED_PIPE = 1_048_576  # Bytes that fit where the system allows it: so neither side waits often.
_KILLED = 9


class Program:
    """A run of the program, until it has `ended`; then `status` is its own."""

    def __init__(self, *words: str) -> None:
        name = os.environ.get("RUBEWOLA_PROGRAM") or "pk_find"
        (to_read, to), (replies, to_reply), (errors, to_fail) = (_pipe() for _ in range(3))
        actions = [(os.POSIX_SPAWN_DUP2, end, at)
                   for at, end in enumerate((to_read, to_reply, to_fail))]
        self.input, self.output = os.fdopen(to, "wb"), os.fdopen(replies, "rb")
        self.errors, self.status = os.fdopen(errors, "rb"), None
        try:
            # A session of its own, so that the terminal's interrupt does not end it.
            self._id = os.posix_spawnp(name, [name, *words], os.environ, file_actions=actions,
                                       setsid=True)
        except FileNotFoundError:
            raise FileNotFoundError(f"there is no program {name}: install it, or name it by "
                                    "RUBEWOLA_PROGRAM") from None
        finally:
            for end in (to_read, to_reply, to_fail):
                os.close(end)

    def in_flight(self) -> int:
        """How many bytes its pipes take, in whatever pieces they come."""
        return min(map(_room, (self.input, self.output))) // 2

    def ended(self) -> str:
        """Lets it end, and gives what it told of errors; that once."""
        if self.output.closed:
            return ""
        try:
            self.input.close()
        except BrokenPipeError:
            pass
        self.output.read()
        told = self.errors.read().decode(errors="replace")
        if self.status is None:
            self.status = os.waitstatus_to_exitcode(os.waitpid(self._id, 0)[1])
        self.output.close()
        self.errors.close()
        return told

    def has_ended(self) -> bool:
        """Whether it has ended, also where nobody has let it."""
        if self.status is None:
            ended, status = os.waitpid(self._id, os.WNOHANG)
            self.status = os.waitstatus_to_exitcode(status) if ended else None
        return self.status is not None

    def kill(self) -> None:
        """Ends it in its midst."""
        os.kill(self._id, _KILLED)


def _pipe() -> list[int]:
    """A pipe whose ends are none of the standard streams, also where one of these is closed."""
    ends = os.pipe()
    try:
        fcntl.fcntl(ends[0], fcntl.F_SETPIPE_SZ, WANTED_PIPE)
    except (AttributeError, OSError):
        pass  # Not every system does, nor for everybody.
    moved = [fcntl.fcntl(end, fcntl.F_DUPFD_CLOEXEC, 3) if end < 3 else end for end in ends]
    for end in set(ends) - set(moved):
        os.close(end)
    return moved


def _room(pipe: object) -> int:
    try:
        return fcntl.fcntl(pipe, fcntl.F_GETPIPE_SZ)
    except (AttributeError, OSError):  # Not every system tells.
        return LEAST_PIPE
