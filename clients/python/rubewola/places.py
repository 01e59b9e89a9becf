"""Where the mails of maildirs are.

The name of a mail's file is given once: what stands before its flags stays when the mail is read,
moved or put back. A mail's place is its folder and that name, whatever its flags, and whether it
stands in `new` or in `cur`.
"""

from __future__ import annotations

import os
import time

FOLDERS = ("cur", "new")


def base_name(path: str) -> str:
    """The name of a mail's file without its flags, which change."""
    return os.path.basename(path).partition(":2,")[0]


def place_of(path: str) -> str:
    """A path without what changes as a mail is read: it stands in `cur`, and has no flags. That of
    no maildir's file is itself."""
    folder = os.path.dirname(path)
    if os.path.basename(folder) not in FOLDERS:
        return path
    return os.path.join(os.path.dirname(folder), "cur", base_name(path))


# Behind a change a folder is listed anew each time for so many nanoseconds: another change may have
# the same moment.
_SETTLED = 2_000_000_000
# Folders as they were listed last, with the moment of their last change.
_LISTED: dict[str, tuple[int, dict[str, str]]] = {}
_MOST_LISTED = 16


def _names(folder: str) -> dict[str, str]:
    """The names of a folder's files, by what they are without flags."""
    try:
        changed = os.stat(folder).st_mtime_ns
        known = _LISTED.get(folder)
        if known and known[0] == changed:
            return known[1]
        names = {name.partition(":2,")[0]: name for name in os.listdir(folder)}
    except (OSError, ValueError):  # A name that any program stored may be none.
        return {}
    if time.time_ns() - changed > _SETTLED:
        if len(_LISTED) >= _MOST_LISTED:
            _LISTED.clear()
        _LISTED[folder] = changed, names
    return names


class Places:
    """Where mails are now. Each folder is looked at once."""

    def __init__(self) -> None:
        self._seen: dict[str, dict[str, str]] = {}

    def _names(self, folder: str) -> dict[str, str]:
        if folder not in self._seen:
            self._seen[folder] = _names(folder)
        return self._seen[folder]

    def path_at(self, place: str) -> str | None:
        """The path of the mail that has this place, if it is there."""
        if os.path.lexists(place):
            return place
        top, base = os.path.dirname(os.path.dirname(place)), os.path.basename(place)
        if os.path.lexists(unread := os.path.join(top, "new", base)):
            return unread
        for folder in (os.path.join(top, name) for name in FOLDERS):
            if name := self._names(folder).get(base):
                return os.path.join(folder, name)
        return None
