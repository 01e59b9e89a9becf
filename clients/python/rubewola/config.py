"""The config file, `$XDG_CONFIG_HOME/rubewola/config.toml`: what a user wants each time.

    store = "~/archive"            # as RUBEWOLA_STORE
    pager = "less -R"              # of searches and texts on a terminal

    [defaults.search]              # options of a command, by their names
    limit = 20

    [searches]                     # `saved:urgent` in a query
    urgent = "from:boss date:7d.."

    [filters]                      # of attached files, for loads with --filters
    "application/pdf" = ["pdftotext", "-", "-"]
"""

from __future__ import annotations

import os
from collections import namedtuple

from . import queries
from .commands import config_path
from .errors import Misused, tell

TYPE_CHECKING = False
if TYPE_CHECKING:
    from typing import Any

MOST_BYTES = 1_048_576  # Of the file.
DEEPEST = 8  # Saved searches within one another.
SAVED = "saved"


class Config(namedtuple("Config", ("store", "pager", "defaults", "searches", "filters"),
                        defaults=("", "", {}, {}, {}))):
    """What the file says."""


_TYPES = {"store": str, "pager": str, "defaults": dict, "searches": dict, "filters": dict}


def read() -> Config:
    """What the file says, if there is one."""
    try:
        with open(config_path(), "rb") as file:
            data = file.read(MOST_BYTES + 1)
    except (FileNotFoundError, NotADirectoryError):
        return Config()
    try:
        import tomllib
    except ImportError:
        tell(f"{config_path()} is not read: that wants Python 3.11")
        return Config()
    try:
        if len(data) > MOST_BYTES:
            raise ValueError(f"it has more than {MOST_BYTES:,} bytes")
        return _config(tomllib.loads(data.decode()))
    except (ValueError, RecursionError) as error:
        raise Misused(f"{config_path()}: {error}") from error


def _config(told: dict[str, Any]) -> Config:
    """What the file's values mean; a ValueError tells what is wrong."""
    for name, value in told.items():
        if name not in _TYPES:
            raise ValueError(f"{name} is no setting; settings are {', '.join(_TYPES)}")
        if not isinstance(value, _TYPES[name]):
            raise ValueError(f"{name} is no {'table' if _TYPES[name] is dict else 'text'}")
    found = Config(**told)
    for name, options in found.defaults.items():
        if not isinstance(options, dict) or not all(isinstance(one, (bool, int, str))
                                                    for one in options.values()):
            raise ValueError(f"defaults.{name} is no table of options")
    for name, query in found.searches.items():
        if not isinstance(query, str) or not query.strip():
            raise ValueError(f"searches.{name} is no query")
    for name, command in found.filters.items():
        if not _is_command(command) or "/" not in name or name != name.lower():
            raise ValueError(f'filters."{name}": a type as "application/pdf" has a list of words, '
                             'as ["pdftotext", "-", "-"]')
    return found._replace(store=os.path.expanduser(found.store))


def _is_command(value: object) -> bool:
    return isinstance(value, list) and bool(value) and all(
        isinstance(word, str) and word and "\0" not in word for word in value)


def defaults(command: Any) -> dict[str, Any]:
    """The options that the file has for a command, by their keys."""
    known = {option.name.lstrip("-"): option for option in command.options}
    found = {}
    for name, value in read().defaults.get(command.name, {}).items():
        option = known.get(name)
        if not option or isinstance(value, bool) == bool(option.value):
            raise Misused(f"{config_path()}: defaults.{command.name}.{name} is no option"
                          + (" with such a value" if option else ""))
        if value is not False:
            found[option.key] = True if value is True else option.read(str(value))
    return found


def expanded(typed: str) -> str:
    """A query with the saved searches that it names in their places."""
    searches, depth = read().searches, 0
    while any(_is_saved(token) for token in queries.tokens(typed)):
        depth += 1
        if depth > DEEPEST or len(typed) > queries.LONGEST:
            raise queries.refused(f"saved searches name one another {DEEPEST} times", typed, 0)
        typed = "".join(_in_place(token, searches, typed) if _is_saved(token) else token.text
                        for token in queries.tokens(typed))
    return typed


def _is_saved(token: queries.Token) -> bool:
    return token.name.casefold() == SAVED


def _in_place(token: queries.Token, searches: dict[str, str], typed: str) -> str:
    """What stands in the place of a saved search's name."""
    name = token.value.strip('"')
    if name not in searches or token.rest:
        known = f"; there are {', '.join(sorted(searches))}" if searches else ""
        raise queries.refused(f'no search is saved as "{name}" in {config_path()}{known}', typed,
                              token.place)
    return f"({searches[name]})"
