"""Archives of mails and logs, and Boolean search in them."""

from __future__ import annotations

import _signal
import os
import sys

from . import actions, commands
from .commands import Given, help_of
from .errors import InputRefused, Misused, StoreError, tell

HELP, VERSION = ("--help", "-h", "help"), ("--version", "-V")
COMPLETE = "--complete"  # For the shells' completions: what the last word may become.


def help_text() -> str:
    """All commands, and examples of them."""
    known = commands.COMMANDS.values()
    width = max(len(command.name) for command in known)
    lines = [f"  {command.name:{width}}  {command.help}" for command in known]
    return "\n".join(["usage: rubewola COMMAND ..", "", str(__doc__), "", *lines, "",
                      "`rubewola COMMAND --help` tells of one; RUBEWOLA_STORE is a store that need "
                      "not be named.", "", commands.EXAMPLES])


def done(words: list[str]) -> int:
    """Does what a command line says, and gives the status."""
    name, *rest = words or ["--help"]
    if name in HELP or name in VERSION:
        actions.put([f"rubewola {commands.VERSION}" if name in VERSION else help_text().rstrip()])
        return 0 if words else 2
    if name == COMPLETE:
        actions.put(commands.candidates(rest))
        return 0
    if name not in commands.COMMANDS:
        raise Misused(f"{name} is no command; `rubewola --help` names them")
    command = commands.COMMANDS[name]
    if set(rest[:rest.index("--")] if "--" in rest else rest) & set(HELP[:2]):
        actions.put([help_of(command)])
        return 0
    return getattr(actions, command.run)(Given(command, rest))


def _heed_interrupts() -> None:
    """Lets an interrupt stop what is done, if the entry made it end the process until now."""
    if _signal.getsignal(_signal.SIGINT) is _signal.SIG_DFL:
        _signal.signal(_signal.SIGINT, _signal.default_int_handler)


def main() -> int:
    """Does what the command line says, and gives the status; nothing is left to be printed."""
    if sys.stdout is None:
        tell("standard output is closed")
        return 2
    sys.stdout.reconfigure(encoding="utf-8", errors="surrogateescape")
    try:
        _heed_interrupts()
        status = done(sys.argv[1:])
        sys.stdout.flush()
        return status
    except BrokenPipeError:
        os.dup2(os.open(os.devnull, os.O_WRONLY), sys.stdout.fileno())
        return 0
    except (OSError, StoreError, UnicodeError, InputRefused, Misused) as error:
        tell(str(error))
        return 2
    except Exception:  # Python's own status, 1, would say that nothing was found.
        import traceback
        traceback.print_exc()
        return 2
    except KeyboardInterrupt:
        tell("stopped; what is committed stays")
        return 130


def run() -> None:
    """Ends the process with the status of what the command line says, at once."""
    status = main()
    try:
        sys.stdout and sys.stdout.flush()
    finally:
        os._exit(status)


if __name__ == "__main__":
    run()
