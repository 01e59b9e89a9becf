"""Archives over several machines: loads, searches and looks after their shards."""

import argparse
import importlib.util
import os
import sys
import traceback

from .faults import FAULTS, tell

EXAMPLES = """examples:
  $ rubewola-shards shards.toml scheduler
  $ rubewola-shards shards.toml worker disk-a
  $ rubewola-shards shards.toml create --units 1048576
  $ rubewola-shards shards.toml load-log syslog
  $ rubewola-shards shards.toml search --limit 9 'failed date:2026..'
"""
ABSENT = "wants Python 3.11 and distributed: apt-get install python3-distributed"
DAEMONS = ("scheduler", "worker")


def _some(text: str) -> int:
    """A number of at least one."""
    if not text.isdecimal() or not int(text):
        raise argparse.ArgumentTypeError("wants a number of at least 1")
    return int(text)


def parser() -> argparse.ArgumentParser:
    """What the command line may say."""
    top = argparse.ArgumentParser("rubewola-shards", description=__doc__, epilog=EXAMPLES,
                                  formatter_class=argparse.RawDescriptionHelpFormatter)
    top.add_argument("archive", help="the file that names the shards")
    top.add_argument("--wait", type=_some, default=0, metavar="S",
                     help="seconds for an answer of a shard (default: 10, for a load 60)")
    commands = top.add_subparsers(dest="command", metavar="COMMAND", required=True)
    _add_daemons(commands)
    commands.add_parser("create", help="make the stores").add_argument(
        "--units", type=_some, required=True, help="of 512 bytes, for each")
    for name, what in (("load-log", "logs, a document for each line"), ("load-mbox", "mailboxes")):
        loader = commands.add_parser(name, help=what)
        loader.add_argument("input", nargs="+")
        loader.add_argument("--no-parts", action="store_true", help="without parts of joined words")
    finder = commands.add_parser("search", help="find mails or lines")
    finder.add_argument("query", nargs="+")
    finder.add_argument("--limit", type=int, default=sys.maxsize, help="only the last so many")
    finder.add_argument("--count", action="store_true", help="only how many")
    finder.add_argument("--format", choices=("text", "json", "paths"), default="text")
    counter = commands.add_parser("counts", help="how many documents there are")
    for part in (finder, counter):
        part.add_argument("--partial", action="store_true", help="also where shards are missing")
    commands.add_parser("delete", help="delete documents").add_argument(
        "numbers", nargs="+", type=_some, metavar="number")
    for name, what in (("commit", "write what is new"), ("tidy", "join eight segments of each store"),
                       ("merge", "join all segments of each store"), ("check", "read and compare all"),
                       ("open", "keep the sessions open"), ("close", "end the sessions, to copy stores"),
                       ("shell", "a prompt")):
        commands.add_parser(name, help=what)
    return top


def _add_daemons(commands: "argparse._SubParsersAction[argparse.ArgumentParser]") -> None:
    part = commands.add_parser("scheduler", help="become the scheduler")
    part.add_argument("--pages", type=int, default=8787, metavar="PORT",
                      help="its pages on 127.0.0.1 (default: 8787)")
    part = commands.add_parser("worker", help="become a worker that has disks")
    part.add_argument("--host", default="127.0.0.1", help="the address where it listens")
    part.add_argument("--folder", default="/tmp", help="for its own files (default: /tmp)")
    part.add_argument("disks", nargs="+", metavar="disk")


def carry_out(given: argparse.Namespace) -> int:
    """Does what a command line says, and gives the status."""
    from .archive import Archive  # Wants a Python that has tomllib.
    archive = Archive.read(given.archive)
    if given.command in DAEMONS:
        from . import daemons
        getattr(daemons, given.command)(archive, given)
    from . import commands  # Imports distributed, which takes most of a second.
    return commands.carry_out(archive, given)


def main() -> int:
    """Does what the command line says; what fails is told in a line."""
    given = parser().parse_args()
    if sys.version_info < (3, 11) or not importlib.util.find_spec("distributed"):
        tell(ABSENT)
        return 2
    sys.stdout.reconfigure(encoding="utf-8", errors="surrogateescape")
    try:
        return carry_out(given)
    except BrokenPipeError:
        os.dup2(os.open(os.devnull, os.O_WRONLY), sys.stdout.fileno())
        return 0
    except FAULTS as error:
        tell(str(error))
        return 2
    except Exception:  # Python's own status, 1, would say that nothing was found.
        traceback.print_exc()
        return 2
    except KeyboardInterrupt:
        print("\nrubewola-shards: stopped; what is committed stays", file=sys.stderr)
        return 130


if __name__ == "__main__":
    sys.exit(main())
