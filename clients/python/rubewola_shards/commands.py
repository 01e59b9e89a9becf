"""What each command of `rubewola-shards` does."""

from __future__ import annotations

import argparse
import logging
import sys
import time
from collections.abc import Iterator
from contextlib import suppress

from rubewola import layout, queries
from rubewola.store import DAMAGED, shown

from . import answers, inputs, loading
from .archive import Archive
from .faults import FAULTS, Missing, ShardsError, tell
from .fleet import Fleet

LOADERS = {"load-log": inputs.Lines, "load-mbox": inputs.Mails}
EACH = ("create", "commit", "tidy", "merge", "check", "close")  # Each shard tells what it did.
LAST = 20  # What a find at the prompt shows.


def load(fleet: Fleet, given: argparse.Namespace) -> int:
    """Loads what a command line names."""
    begin, source = time.monotonic(), LOADERS[given.command](*given.input)
    loaded = loading.load(fleet, source, not given.no_parts)
    for note in source.notes:
        tell(note)
    print(f"loaded {loaded.added} in {time.monotonic() - begin:.1f} s, complete to "
          f"{loaded.complete}", file=sys.stderr)
    if loaded.missing:
        raise Missing(loaded.missing)
    return 0


def search(fleet: Fleet, given: argparse.Namespace) -> int:
    """Prints what is found, the newest last, and gives grep's status; 3 where shards are missing."""
    limit = 0 if given.count else max(given.limit, 0)
    found = answers.find(fleet, " ".join(given.query), limit, tell)
    damaged: list[str] = []
    for line in ([found.count] if given.count else
                 answers.lines(fleet, found.numbers, given.format, damaged)):
        print(line)
    for one in damaged:
        tell(one)
    status = told_of_missing(fleet) or (0 if found.count else 1)
    return 2 if damaged else status


def told_of_missing(fleet: Fleet) -> int:
    """Says which shards an answer is without, if any; then the status is 3."""
    for name, reason in fleet.missing.items():
        tell(f"partial answer: {name} is missing ({reason})")
    return 3 if fleet.missing else 0


def counts(fleet: Fleet, _: argparse.Namespace) -> int:
    """Prints what each shard has, all together, and up to which number none is lacking."""
    told = fleet.ask_each({shard: ("counts", shard.most) for shard in fleet.archive.shards})
    for shard, (live, following) in told.items():
        print(f"{shard.name}: count {live} next {following}")
    total = f"count {sum(live for live, _ in told.values())}"
    if not fleet.missing:
        nexts = {shard: min(following, shard.most + 1) for shard, (_, following) in told.items()}
        total += f" complete to {fleet.archive.complete(nexts)}"
    print(total)
    return told_of_missing(fleet)


def delete(fleet: Fleet, given: argparse.Namespace) -> int:
    """Deletes documents, for good where it says so. A call that came twice finds none."""
    wanted = fleet.by_shard(sorted(set(given.numbers)))
    deleted = fleet.ask_each({shard: ("delete", local) for shard, local in wanted.items()})
    for shard, were_there in deleted.items():
        for number, was_there in zip(shard.numbers(wanted[shard]), were_there):
            print(f"deleted {number}" if was_there else f"{number} was deleted, or was not there")
    return 0


def each(fleet: Fleet, given: argparse.Namespace) -> int:
    """Prints what each shard answers, and wants an answer of each."""
    call = {"create": ("create", getattr(given, "units", 0)), "check": ("check",),
            "close": ("close",)}.get(given.command, ("ask", given.command))
    if given.command == "close":
        fleet.let_go()
    for shard, answer in fleet.ask_all(*call).items():
        print(f"{shard.name}: {answer}")
    if fleet.missing:
        raise Missing(fleet.missing)
    return 0


def keep_open(fleet: Fleet, _: argparse.Namespace) -> int:
    """Opens the sessions, which then stay without a client."""
    fleet.keep_open()
    return counts(fleet, _)


def _typed_lines() -> Iterator[str]:
    with suppress(ImportError):  # A Python without readline has a plain prompt.
        import readline
        readline.set_auto_history(True)
    with suppress(EOFError):
        while (line := input("rubewola-shards> ").strip()) != "quit":
            yield line


def answer(fleet: Fleet, line: str) -> None:
    """Answers a line at the prompt:

    find QUERY   the last 20 documents that satisfy it, and how many do
    show N       the text of document N
    delete N ..  deletes documents
    counts       what each shard has
    tidy, merge  joins segments of each store
    check        reads and compares all
    commit       writes what is new to the disks
    quit         ends, as the end of the input does
    """
    command, _, rest = line.partition(" ")
    if command == "find":
        found, damaged = answers.find(fleet, rest, LAST, tell), list[str]()
        print(*answers.lines(fleet, found.numbers, "text", damaged), *damaged,
              f"found {found.count}", sep="\n")
    elif command == "show":
        print(_shown(fleet, _number(rest)))
    elif command == "delete":
        delete(fleet, argparse.Namespace(numbers=[*map(_number, rest.split())]))
    elif line == "counts":
        counts(fleet, argparse.Namespace())
    elif line in ("commit", "tidy", "merge", "check"):
        each(fleet, argparse.Namespace(command=line))
    else:
        print(answer.__doc__)


def _shown(fleet: Fleet, number: int) -> str:
    """The text of a document, or why there is none."""
    reply = answers.replies(fleet, [number]).get(number)
    if reply is None:
        return "no such document"
    if reply == DAMAGED:
        return f"refused {answers.why_damaged(fleet, number)}"
    return queries.plain(layout.split(shown(reply))[0])


def _number(text: str) -> int:
    if not text.isdecimal() or not int(text):
        raise ShardsError(f"{text!r} is no number of a document")
    return int(text)


def shell(fleet: Fleet, _: argparse.Namespace) -> int:
    """Answers a person's commands, each by all shards."""
    print("`help` names the commands, `quit` ends.")
    for line in filter(None, _typed_lines()):
        try:
            answer(fleet, line)
        except FAULTS as fault:
            print(f"refused {fault}")
    return 0


COMMANDS = {"search": search, "counts": counts, "delete": delete, "open": keep_open, "shell": shell,
            **dict.fromkeys(LOADERS, load), **dict.fromkeys(EACH, each)}


def carry_out(archive: Archive, given: argparse.Namespace) -> int:
    """Connects, and does what a command line says of the shards."""
    logging.disable()  # What Dask logs of a shard is told once, as a refusal.
    partial = given.command in EACH or getattr(given, "partial", False)
    with Fleet(archive, given.wait, partial) as fleet:
        return COMMANDS[given.command](fleet, given)
