"""The commands of `rubewola`: what a command line says, by a table of them, the help that comes of
it, and what the shells' completions may put there.
"""

from __future__ import annotations

import os
import sys
from collections import namedtuple

from .errors import Misused
from .queries import FIELDS, OPERATORS

TYPE_CHECKING = False
if TYPE_CHECKING:
    from typing import Any

VERSION = "0.1.0"

STORE = "RUBEWOLA_STORE"
_DIGITS = 18  # Python refuses to read a number of thousands; no number that is larger means more.
STORES = "[STORE ..]"  # The words of a command that are all stores.


class Option(namedtuple("Option", ("name", "help", "value", "short"), defaults=("", ""))):
    """An option, with what its value is called, where it has one: `N` is a number of at least 1,
    `a|b` one of these."""

    @property
    def key(self) -> str:
        """Its name among the options that were given."""
        return self.name.lstrip("-").replace("-", "_")

    def read(self, text: str) -> int | str:
        """Its value."""
        if self.value == "N":
            digits = text.lstrip("0") if text.isdecimal() else ""
            if not digits:
                raise Misused(f"{self.name} wants a number of at least 1")
            return int(digits) if len(digits) <= _DIGITS else sys.maxsize
        if "|" in self.value and text not in self.value.split("|"):
            raise Misused(f"{self.name} is one of {self.value.replace('|', ', ')}")
        return text

    def __str__(self) -> str:
        return f"{self.name} {self.value}".strip()


class Command(namedtuple("Command", ("name", "run", "words", "help", "options"), defaults=((),))):
    """A command: the function of `actions` that does it; what its words are, with `..` behind those
    of which there may be many, in brackets where there need be none; its options."""

    @property
    def usage(self) -> str:
        """How it is written."""
        options = "".join(f" [{option}]" for option in self.options)
        return f"rubewola {self.name}{options} STORE {self.words}".rstrip()


STORE_OPTION = Option("--store", "the store; else the first word names it", "STORE", "-s")


class Given:
    """What a command line says: a command, its stores, its words, and its options by their keys."""

    def __init__(self, command: Command, words: list[str]) -> None:
        self.command, self.words, self.options = command, [], {}
        known = {name: option for option in (*command.options, STORE_OPTION)
                 for name in (option.name, option.short) if name}
        rest = iter(words)
        for word in rest:
            if word == "--":
                self.words.extend(rest)
            elif word.startswith("-") and word != "-":
                self._take(known, word, rest)
            else:
                self.words.append(word)
        self._store = ""
        if os.path.exists(config_path()):
            from . import config
            self.options = {**config.defaults(command), **self.options}
            self._store = config.read().store
        self.stores = self._stores()
        least = 0 if command.words.startswith("[") else len(command.words.replace("..", "").split())
        if len(self.words) < least or self.words and not command.words:
            raise Misused(f"usage: {command.usage}")

    def _take(self, known: dict[str, Option], word: str, rest: Any) -> None:
        name, equals, value = word.partition("=")
        option = known.get(name)
        if not option or equals and not option.value:
            raise Misused(f"{self.command.name} has no option {name}; behind -- it is a word")
        if not option.value:
            self.options[option.key] = True
            return
        read = option.read(value if equals else self._next(option, rest))
        if option is STORE_OPTION:
            self.options.setdefault(option.key, []).append(read)
        else:
            self.options[option.key] = read

    @staticmethod
    def _next(option: Option, rest: Any) -> str:
        for value in rest:
            return value
        raise Misused(f"{option.name} wants a value")

    def _stores(self) -> list[str]:
        """The stores: those of the options, or else that of the environment or of the config file,
        or else the first word; where all words are stores, these and those of the options, or else
        that one."""
        stores = self.options.pop("store", [])
        if self.command.words == STORES:
            stores, self.words = stores + self.words, []
        stores = stores or [one for one in [os.environ.get(STORE) or self._store] if one]
        if not stores:
            stores, self.words = self.words[:1], self.words[1:]
        if not stores or len(stores) > 1 and self.command.name not in ("search", "serve"):
            raise Misused(f"usage: {self.command.usage}")
        return stores


def config_path() -> str:
    """Where a config file would be, which few have: what reads it is imported for these alone."""
    folder = os.environ.get("XDG_CONFIG_HOME") or os.path.expanduser("~/.config")
    return f"{folder}/rubewola/config.toml"


def help_of(command: Command) -> str:
    """The help of a command."""
    shown = [(f"{option.short}, {option}" if option.short else str(option), option.help)
             for option in (*command.options, STORE_OPTION)]
    width = max(len(name) for name, _ in shown)
    lines = [f"  {name:{width}}  {told}" for name, told in shown]
    return "\n".join([f"usage: {command.usage}", "", command.help, "", *lines])


_NO_PARTS = Option("--no-parts", "do not find parts of words: lists.debian.org by debian")
_JOBS = Option("--jobs", "how many processes decode (default: one a processor)", "N")
_NO_ACCENTS = Option("--no-accents", "do not find words with accents without them: résumé by resume")
_LOADING = (_NO_PARTS, _NO_ACCENTS, _JOBS)
_FOLLOW = Option("--follow", "go on until interrupted, and load what comes; look each second")
_FILTERS = Option("--filters", "the text of attached files too, by programs of the config file")
_NO_PAGER = Option("--no-pager", "print at once, also on a terminal")
_PRUNE = Option("--prune", "delete mails whose files are in no folder any more")

_ALL = (
    Command("load-maildir", "load", "DIR ..",
            "loads the mails of maildirs, MH folders and .eml files, and of folders in them",
            (*_LOADING, _FILTERS, _PRUNE, _FOLLOW)),
    Command("load-mbox", "load", "FILE ..", "loads the mails of mailboxes", (*_LOADING, _FILTERS)),
    Command("load-log", "load", "FILE ..", "loads logs, a document for each line",
            (*_LOADING, _FOLLOW)),
    Command("load-json", "load", "FILE ..", "loads lines of JSON, whose names are fields",
            (*_LOADING, _FOLLOW)),
    Command("load-journal", "load", "FILE ..", "loads what `journalctl -o json` prints",
            (*_LOADING, _FOLLOW)),
    Command("search", "search", "QUERY ..", "finds mails or lines, the newest last", (
        Option("--limit", "print only the newest N, or the first N of another order", "N"),
        Option("--offset", "pass over the N before these", "N"),
        Option("--sort", "print in another order: what stands first in it",
               "newest|oldest|number|from|subject"),
        Option("--newest", "print the newest first"),
        Option("--unique", "print only the newest of mails with one message id"),
        Option("--count", "print only how many there are"),
        Option("--format", "print each so (default: text)", "text|json|paths"),
        Option("--context", "print also the text round the words, as on a terminal"),
        Option("--null", "end each line with a NUL", short="-0"), _NO_PAGER)),
    Command("show", "show", "N ..", "prints the texts of documents by their numbers", (
        Option("--raw", "print mails as their files in maildirs have them"), _NO_PAGER)),
    Command("delete", "delete", "[N ..]", "deletes documents, and commits", (
        Option("--query", "delete what a query finds", "QUERY"),)),
    Command("info", "info", "", "tells how many documents a store has, their days and its room"),
    Command("check", "check", "", "sees whether each byte is as it was written"),
    Command("tidy", "tidy", "", "joins eight segments of the store's file, after many commits"),
    Command("merge", "merge", "", "joins all segments, and frees what was deleted"),
    Command("create", "create", "", "makes an empty store", (
        Option("--size", "its room, as 500M or 20G (default: 256M)", "SIZE"),)),
    Command("grow", "grow", "", "gives a store more room", (
        Option("--units", "N units of 512 bytes (default: twice those that it has)", "N"),)),
    Command("shell", "shell", "", "a prompt"),
    Command("serve", "serve", STORES, "a page for a browser on this machine, to search and read", (
        Option("--port", "the port of its address (default: one that is free)", "N"),)),
)
COMMANDS = {command.name: command for command in _ALL}

EXAMPLES = """examples:
  $ rubewola load-mbox archive ~/mail/devel.mbox
  $ rubewola load-maildir --prune archive ~/Mail
  $ rubewola load-maildir mails ~/Mail
  $ rubewola search mails 'folder:mail flag:seen'
  $ rubewola load-log lines syslog
  $ rubewola load-json service service.json
  $ journalctl -o json | rubewola load-journal journal.store -
  $ rubewola search archive --count 'subject:schedule (freeze OR release)'
  $ rubewola search --limit 9 archive from:bdale date:2010-05..2010-07
  $ rubewola search --newest --limit 20 --offset 20 --unique archive freeze OR release
  $ rubewola search archive '"code freeze" OR releas*'
  $ rubewola search archive 'subject:"schedule of the freeze"'
  $ rubewola search archive 'from:bda* NOT draft*'
  $ rubewola search lines 'failed date:2026..'
  $ rubewola search --context lines 'file:syslog line:1..9 failed'
  $ rubewola search service level:error
  $ rubewola search -s archive -s lines freeze OR failed
  $ rubewola serve archive lines
  $ rubewola show archive 1
  $ rubewola show --raw mails 1
  $ rubewola delete archive --query 'subject:advertisement'
  $ rubewola info archive
  $ rubewola grow archive
  $ rubewola check archive
"""


def candidates(words: list[str]) -> list[str]:
    """What the last of the words may become, which stand behind the program's name. Where that is
    a file there are none."""
    *before, last = words or [""]
    if not before:
        known = [*COMMANDS, "--help", "--version"]
    else:
        known = _behind(before, last)
    return [word for word in known if word.startswith(last)]


def _behind(before: list[str], last: str) -> list[str]:
    """What may stand behind a command and more words."""
    if before[0] not in COMMANDS:
        return []
    command = COMMANDS[before[0]]
    options = [*command.options, STORE_OPTION]
    for option in options:
        if option.value and before[-1] in (option.name, option.short):
            return option.value.split("|") if "|" in option.value else _query(option.value)
    if last.startswith("-"):
        return ["--help", *(option.name for option in options)]
    plain = [word for word in before[1:] if not word.startswith("-")]
    has_store = plain or os.environ.get(STORE) or {"-s", "--store"} & set(before)
    return _query(command.words.split(" ")[0]) if has_store else []


def _query(value: str) -> list[str]:
    """What a query may hold, where one is wanted."""
    if value != "QUERY":
        return []
    return [*(f"{name}:" for name in FIELDS), *OPERATORS, *(f"saved:{name}" for name in _saved())]


def _saved() -> list[str]:
    """The names of saved searches."""
    if not os.path.exists(config_path()):
        return []
    from . import config
    try:
        return sorted(config.read().searches)
    except Misused:
        return []  # A command tells why.
