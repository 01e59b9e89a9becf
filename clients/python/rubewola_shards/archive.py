"""What an archive over many stores is: its shards, and which document stands where.

A document's number is its place in the whole input. A group of n shards takes the input in blocks
by turns: block 0 goes to shard 0, block 1 to shard 1, block n to shard 0 again. So a number is
worked out from a shard and a number of its store, and back, and no table of them is kept. A later
group takes the input from its `first` number on, as when the disks of the one before are full.
"""

from __future__ import annotations

import ipaddress
import re
import tomllib
from bisect import bisect_right
from collections.abc import Iterable, Mapping
from pathlib import Path
from typing import Any, NamedTuple
from urllib.parse import urlsplit

from .faults import ArchiveError

BLOCK = 4_096  # Documents of a block, where the file says nothing.
NO_END = 2**63  # Behind all numbers: the end of the last group.

_NAME = re.compile(r"[\w.-]+", re.ASCII)


class Shard(NamedTuple):
    """A store: its name, the disk that its worker must have, and its path there. It is the `at`th,
    from 0, of the `of` shards of a group with the numbers from `first` up to `end`."""

    name: str
    disk: str
    path: str
    at: int
    of: int
    first: int
    end: int
    block: int

    @property
    def identity(self) -> str:
        """What the numbers of the store's documents follow from. It lies beside the store."""
        return f"{self.at + 1} of {self.of} from {self.first} by {self.block}"

    @property
    def most(self) -> int:
        """How many documents have their place here: what the store may have more belongs to the
        next group."""
        turn, rest = divmod(self.end - self.first, self.of * self.block)
        return turn * self.block + min(max(rest - self.at * self.block, 0), self.block)

    def numbers(self, local: Iterable[int]) -> list[int]:
        """The numbers in the archive of documents with these numbers in the store; they rise as
        those do."""
        first, block = self.first + self.at * self.block, self.block
        others = (self.of - 1) * block  # What the other shards take between two blocks.
        return [first + place + place // block * others for place in (n - 1 for n in local)]

    def number(self, local: int) -> int:
        """The number in the archive of the document with this number in the store."""
        return self.numbers([local])[0]


class Archive(NamedTuple):
    """The groups of an archive, by their first numbers, and where its scheduler is."""

    scheduler: str
    tls: dict[str, str]
    firsts: list[int]
    groups: list[list[Shard]]

    @classmethod
    def read(cls, path: str | Path) -> Archive:
        """The archive that a file tells of."""
        try:
            told = tomllib.loads(Path(path).read_text("utf-8"))
            return _archive(told, Path(path).absolute().parent)
        except ValueError as error:
            raise ArchiveError(f"{path}: {error}") from error

    @property
    def shards(self) -> list[Shard]:
        """All shards, in their order."""
        return [shard for group in self.groups for shard in group]

    def place(self, number: int) -> tuple[Shard, int]:
        """The shard of a document, and its number there."""
        group = self.groups[bisect_right(self.firsts, number) - 1]
        block, place = divmod(number - group[0].first, group[0].block)
        turn, at = divmod(block, len(group))
        return group[at], turn * group[at].block + place + 1

    def row(self, number: int) -> int:
        """How many documents from a number on stand in a row in its shard."""
        shard, _ = self.place(number)
        return min(shard.block - (number - shard.first) % shard.block, shard.end - number)

    def complete(self, nexts: Mapping[Shard, int]) -> int:
        """The number up to which no document is lacking, by the next number of each store."""
        upto = 0
        for group in self.groups:
            upto = min(shard.number(nexts[shard]) for shard in group) - 1
            if upto < group[0].end - 1:
                return upto
        return upto


def _checked(told: Any, what: str, wanted: dict[str, type]) -> dict[str, Any]:
    """A table that has just the names that are wanted, with values of these kinds."""
    if not isinstance(told, dict):
        raise ValueError(f"{what} is no table")
    for name in [*wanted, *told]:
        if type(told.get(name)) is not wanted.get(name):
            raise ValueError(f"{what}: {name} " + (
                f"is missing, or no {wanted[name].__name__}" if name in wanted else "is not known"))
    return told


def _archive(told: dict[str, Any], folder: Path) -> Archive:
    """The archive of a file's tables; paths of certificates begin at its folder."""
    told = {"block": BLOCK, "tls": {}, **told}
    _checked(told, "the file", {"scheduler": str, "block": int, "tls": dict, "group": list})
    tls = told["tls"] and _checked(told["tls"], "tls", {"ca": str, "cert": str, "key": str})
    groups = [_checked(group, "a group", {"first": int, "shards": list}) for group in told["group"]]
    firsts = [group["first"] for group in groups]
    if firsts != sorted(set(firsts)) or firsts[:1] != [1] or told["block"] < 1:
        raise ValueError("the first group begins at 1, and each later one behind it; a block has a "
                         "document or more")
    made = [_shards(group["shards"], first, end, told["block"])
            for group, first, end in zip(groups, firsts, [*firsts[1:], NO_END])]
    archive = Archive(told["scheduler"], {name: str(folder / file) for name, file in tls.items()},
                      firsts, made)
    _judge(archive)
    return archive


def _shards(told: list[Any], first: int, end: int, block: int) -> list[Shard]:
    for shard in told:
        _checked(shard, "a shard", dict.fromkeys(("name", "disk", "path"), str))
        if not _NAME.fullmatch(shard["name"]) or not _NAME.fullmatch(shard["disk"]):
            raise ValueError("names of shards and disks are of letters, digits and ._-")
        if not shard["path"].startswith("/"):
            raise ValueError(f"{shard['path']}: the path of a store begins with /")
    return [Shard(**shard, at=at, of=len(told), first=first, end=end, block=block)
            for at, shard in enumerate(told)]


def _judge(archive: Archive) -> None:
    """Refuses what cannot be, and a scheduler that is reached in the clear."""
    shards, address = archive.shards, urlsplit(archive.scheduler)
    for kind in ({shard.name for shard in shards}, {(s.disk, s.path) for s in shards}):
        if len(kind) < len(shards):
            raise ValueError("two shards have one name, or one place")
    if not all(archive.groups):
        raise ValueError("a group has no shard")
    if address.scheme not in ("tcp", "tls") or not address.hostname or not address.port:
        raise ValueError(f"{archive.scheduler}: a scheduler is tls://HOST:PORT, or tcp://127.0.0.1:PORT")
    if (address.scheme == "tls") != bool(archive.tls):
        raise ValueError("tls:// wants the certificates of [tls], and they want tls://")
    refuse_clear(archive, address.hostname)


def refuse_clear(archive: Archive, host: str) -> None:
    """Refuses a host that others reach, where nothing is encrypted: who reaches a port there can
    run any program."""
    if not archive.tls and not _is_loopback(host):
        raise ArchiveError(f"{host}: without [tls] all stay on this machine, as 127.0.0.1")


def _is_loopback(host: str) -> bool:
    try:
        return ipaddress.ip_address(host).is_loopback
    except ValueError:
        return host == "localhost"
