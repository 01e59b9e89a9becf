"""Mails from maildirs: each file is a mail, known by its name and its checksum.

So are the files of MH folders, whose names are numbers, and those that end with `.eml`. Their names
are given again, so of these a place is known with its checksum.
"""

from __future__ import annotations

import os
import stat
from collections import Counter
from collections.abc import Iterator
from contextlib import suppress
from typing import NamedTuple

from .errors import InputRefused
from .layout import MAILS, split
from .mails import LONGEST_MAIL, entry, identity
from .places import FOLDERS, Places, base_name, place_of
from .sources import Entry, Named, bytes_of
from .store import Store, shown
from .words import SIGN, asked, field_words, named

_EML, _MH, _UNSENT = ".eml", ".mh_sequences", "tmp"


class Wanted(NamedTuple):
    """A file to be loaded, the document whose place it takes, or 0, and the folder's name."""

    path: str
    replaces: int
    folder: str = ""


def _raw(path: str, here: Places) -> bytes | None:
    """The bytes of a mail, whose flags may have changed since its folder was looked at; None where
    it is gone."""
    with suppress(FileNotFoundError):
        return _begin_of(path)
    with suppress(FileNotFoundError):
        now = here.path_at(place_of(path))
        return _begin_of(now) if now else None
    return None


def _begin_of(path: str) -> bytes:
    with open(path, "rb") as file:
        return file.read(LONGEST_MAIL)


def _sum(path: str, here: Places) -> str | None:
    """The checksum of a mail; None where it is gone or cannot be read."""
    with suppress(OSError):
        raw = _raw(path, here)
        return None if raw is None else identity(raw)[1]
    return None


def _read(wanted: list[Wanted], with_parts: bool) -> list[Entry]:
    here = Places()
    return [one for each in wanted for one in _entries(each, with_parts, here)]


def _is_loose(path: str) -> bool:
    """Whether a file stands in no maildir."""
    return os.path.basename(os.path.dirname(path)) not in FOLDERS


def _is_folder(entry: os.DirEntry[str]) -> bool:
    with suppress(OSError):  # A link that leads to itself is told as no file.
        return entry.is_dir()
    return False


def _mails_of(folder: str, names: list[str]) -> list[str]:
    """Of the files of a folder those that are mails: all of `cur` and `new`, none of `tmp`, of
    another the numbered files of MH, and those that end with `.eml`."""
    seen = [name for name in names if not name.startswith(".")]
    if os.path.basename(folder) in FOLDERS:
        return seen
    if os.path.basename(folder) == _UNSENT:
        return []
    is_mh = _MH in names or all(map(_is_number, seen))
    return [name for name in seen if name.lower().endswith(_EML) or is_mh and _is_number(name)]


def _is_number(name: str) -> bool:
    return name.isascii() and name.isdecimal()


def _query(path: str, here: Places) -> str:
    """What finds a mail that is stored, by its place; a loose one by its checksum, too."""
    known = _sum(path, here) if _is_loose(path) else None
    return asked("path", place_of(path)) + (f" {asked('sum', known)}" if known else "")


def _entries(wanted: Wanted, with_parts: bool, here: Places) -> Iterator[Entry]:
    """A mail; none where it is gone; why, where it cannot be read."""
    path = wanted.path
    place = named("path", place_of(path))
    try:
        raw = _raw(path, here)
    except OSError as error:
        yield Entry(b"", place[0], passed=f"{path}: {error.strerror}")
        return
    if raw is not None:
        names = [*place, *named("name", base_name(path)),
                 *field_words("folder", wanted.folder)]
        known = f" {asked('sum', identity(raw)[1])}" if _is_loose(path) else ""
        yield entry(Maildirs.kind, raw, names, place[0] + known, with_parts, wanted.replaces)


class Maildirs(Named):
    """Maildirs, MH folders, folders of `.eml` files, and the folders in them. Each mail that the
    store lacks is added; one that has moved is stored with its new path."""

    kind = "maildir"
    read_chunk = staticmethod(_read)

    def __init__(self, *tops: str) -> None:
        super().__init__()
        self._folders: dict[str, str] = {}
        self.paths = [path for top in tops for path in self._files(top)]
        self.paths = sorted(dict.fromkeys(self.paths), key=lambda path: (base_name(path), path))
        self.size = self.room = sum(map(bytes_of, self.paths))
        self.readable = len(self.paths)
        count = Counter(map(base_name, self.paths))
        self._twice = {name for name, files in count.items() if files > 1}
        self._taken: dict[str, set[str]] = {}
        # By names: the first number and the place of what is stored with a checksum.
        self._stored: dict[str, dict[str, tuple[int, str]]] = {}
        self._replaced: set[int] = set()

    def _files(self, top: str) -> Iterator[str]:
        """The files of mails below a folder; of folders that are linked, each once."""
        top, is_maildir = os.path.abspath(top), False
        try:
            os.stat(top)
        except OSError as error:
            self.passed.append(f"{top}: {error.strerror}")
            return
        for folder, names in self._walked(top):
            is_own = os.path.basename(folder) in FOLDERS
            own = os.path.dirname(folder) if is_own else folder
            self._folders[folder] = (os.path.relpath(own, top) if own != top
                                     else os.path.basename(top))
            kept = _mails_of(folder, names)
            is_maildir |= is_own or bool(kept)
            yield from filter(self._is_mail, (os.path.join(folder, name) for name in kept))
        if not is_maildir and not self.passed:
            raise InputRefused(f"no maildir in {top}: neither `cur` nor `new` is there, nor in a "
                               f"folder below, nor numbered files of MH, nor any with {_EML}")

    def _walked(self, top: str) -> Iterator[tuple[str, list[str]]]:
        """A folder and those below it, however deep, each once, with the names of other files."""
        waiting, seen = [top], set()
        while waiting:
            folder = waiting.pop()
            try:
                told = os.stat(folder)
                with os.scandir(folder) as entries:
                    is_folder = {one.name: _is_folder(one) for one in entries}
            except OSError as error:
                self._pass(error)
                continue
            if (told.st_dev, told.st_ino) not in seen:
                seen.add((told.st_dev, told.st_ino))
                yield folder, [name for name, is_one in is_folder.items() if not is_one]
                below = sorted(name for name, is_one in is_folder.items() if is_one)
                waiting.extend(os.path.join(folder, name) for name in reversed(below))

    def _is_mail(self, path: str) -> bool:
        """Whether a file is there; what cannot be looked at is passed over."""
        try:
            return stat.S_ISREG(os.stat(path).st_mode)
        except OSError as error:
            self._pass(error)
        return False

    def _pass(self, error: OSError) -> None:
        """Keeps why a folder or a file cannot be read, if it is there."""
        if not isinstance(error, FileNotFoundError):
            self.passed.append(f"{error.filename}: {error.strerror}")

    def items(self) -> Iterator[str]:
        """The paths of all mails."""
        for path in self.paths:
            self.read += self.size // len(self.paths)
            yield path

    def lacking(self, store: Store | None, paths: list[str]) -> list[Wanted]:
        """The mails that the store has at no place, or at one where they are no more."""
        here = Places()
        places = self.found(store, [_query(path, here) if store else "" for path in paths])
        new = [path for path, numbers in zip(paths, places) if not numbers]
        self._look_up(store, [*dict.fromkeys(map(base_name, new))])
        judged = [self._judged(path, here) for path in new]
        wanted = [one._replace(folder=self._folders.get(os.path.dirname(one.path), ""))
                  for one in judged if one]
        return [*self._in_place(store, wanted)]

    def _in_place(self, store: Store | None, wanted: list[Wanted]) -> Iterator[Wanted]:
        """Files to be loaded; a loose one takes the place of what stood there before."""
        loose = [one.path for one in wanted if _is_loose(one.path) and not one.replaces]
        before = dict(zip(loose, self.found(store, [asked("path", path) for path in loose])))
        for one in wanted:
            left = (each for each in before.get(one.path, ()) if each not in self._replaced)
            number = next(left, 0)
            self._replaced.update({number} - {0})
            yield one._replace(replaces=one.replaces or number)

    def _look_up(self, store: Store | None, names: list[str]) -> None:
        """Finds what the store has of these names, of each once: any number of mails may have one.
        Paths come by their names, so the last of them may come again."""
        self._stored = {name: self._stored[name] for name in names if name in self._stored}
        new = [name for name in names if name not in self._stored]
        found = zip(new, self.found(store, [asked("name", name) for name in new]))
        numbers = [(name, number) for name, some in found for number in some]
        replies = store.replies(number for _, number in numbers) if numbers else ()
        self._stored.update((name, {}) for name in new)
        for reply, (name, number) in zip(replies, numbers):
            known = split(shown(reply))[1]
            if "sum" in known:
                self._stored[name].setdefault(known["sum"], (number, known.get("path", "")))

    def _judged(self, path: str, here: Places) -> Wanted | None:
        """What is to be done about a mail at a new place."""
        stored = self._stored[base_name(path)]
        own = _sum(path, here) if stored else None
        if own in stored:
            number, place = stored[own]
            if number in self._replaced or here.path_at(place):
                return None  # A copy.
            self._replaced.add(number)
            return Wanted(path, number)
        return None if self._is_copy(path, here) else Wanted(path, 0)

    def _is_copy(self, path: str, here: Places) -> bool:
        """Whether this load has a file of the same name and bytes before."""
        name = base_name(path)
        if name not in self._twice:
            return False
        own, before = _sum(path, here), self._taken.setdefault(name, set())
        if own is None:
            return False
        is_copy = own in before
        before.add(own)
        return is_copy

    def prune(self, store: Store) -> int:
        """Deletes the mails that are in none of the folders, nor at the place where they were, and
        gives how many they were. Where a folder cannot be read none is deleted: it may hold
        them."""
        if self.passed:
            return 0
        here = [asked("path", place_of(path)) for path in self.paths]
        kept = {number for found in self.found(store, here) for number in found}
        lost = [number for number in store.find(SIGN + self.kind) if number not in kept]
        places = Places()
        stored = zip(lost, list(store.show_all(lost)))
        gone = [number for number, text in stored
                if not places.path_at(split(text)[1].get("path", ""))]
        list(store.ask_all(f"delete {number}" for number in gone))
        return len(gone)


def file_of(known: dict[str, str]) -> tuple[bytes | None, str]:
    """The bytes of a mail's file, where it is still that mail; or why there are none."""
    if known.get("kind") != MAILS[0]:
        return None, "no mail of a maildir: its file is not known"
    now = Places().path_at(known.get("path", ""))
    if not now or not stat.S_ISREG(os.stat(now).st_mode):
        return None, "its file is not there any more"
    with open(now, "rb") as file:
        data = file.read(LONGEST_MAIL)
    if identity(data)[1] != known.get("sum"):
        return None, f"{now} has another mail now"
    return data, ""
