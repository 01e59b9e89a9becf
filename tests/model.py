"""What a store is to answer, told from its documents alone."""

from __future__ import annotations

import copy
import re

from .scripts import spelled

_TOKEN = re.compile(r'[()]|"[^"]*"|[^\W_]+\*?')


def words_of(text: str) -> list[str]:
    """The words of a text of plain letters."""
    return [word.lower() for word in re.findall(r"[^\W_]+", text)]


class Query:
    """A query of words of plain letters, their beginnings, phrases, AND, OR, NOT and brackets."""

    def __init__(self, text: str) -> None:
        self._tokens = _TOKEN.findall(text)[::-1]
        self.found = self._any()

    def _next(self) -> str:
        return self._tokens[-1] if self._tokens else ")"

    def _any(self):
        parts = [self._all()]
        while self._next() == "OR":
            self._tokens.pop()
            parts.append(self._all())
        return lambda words: any(part(words) for part in parts)

    def _all(self):
        parts = [self._one()]
        while self._next() not in (")", "OR"):
            if self._next() == "AND":
                self._tokens.pop()
            parts.append(self._one())
        return lambda words: all(part(words) for part in parts)

    def _one(self):
        token = self._tokens.pop()
        if token == "NOT":
            part = self._one()
            return lambda words: not part(words)
        if token == "(":
            part = self._any()
            self._tokens.pop()
            return part
        if token[0] == '"':
            row = words_of(token)
            return lambda words: any(words[at:at + len(row)] == row for at in range(len(words)))
        if token[-1] == "*":
            return lambda words: any(word.startswith(token[:-1].lower()) for word in words)
        return lambda words: token.lower() in words


class Store:
    """A store: its documents, and those of its last commit, with the next numbers."""

    def __init__(self) -> None:
        self.texts: dict[int, str] = {}
        self.next = 1
        self._marked = ({}, 1)

    def copy(self) -> Store:
        """Another one of the same documents."""
        return copy.deepcopy(self)

    def hold(self, line: str) -> None:
        """Takes in a line `holds N TEXT` or `holds next N`."""
        _, number, text = line.split(" ", 2)
        if number == "next":
            self.next = int(text)
        else:
            self.texts[int(number)] = text
        self.mark()

    def mark(self) -> None:
        """What is there is committed."""
        self._marked = (dict(self.texts), self.next)

    def open(self) -> None:
        """What is committed is there."""
        self.texts, self.next = dict(self._marked[0]), self._marked[1]

    def marked(self) -> Store:
        """One of what is committed."""
        other = self.copy()
        other.open()
        return other

    def is_changed(self) -> bool:
        """Whether there is something to commit."""
        return (self.texts, self.next) != self._marked

    def hits(self, query: str) -> list[int]:
        """The numbers of the documents that a query finds."""
        found = Query(query).found
        return [number for number, text in sorted(self.texts.items()) if found(words_of(text))]

    def answer(self, line: str) -> str | None:
        """What a line is answered, which is taken in. None of a line that asks something else."""
        name, _, rest = spelled(line).partition(" ")
        if name == "add":
            self.texts[self.next], self.next = rest, self.next + 1
            return f"added {self.next - 1}"
        if name == "delete":
            there = self.texts.pop(int(rest), None)
            return "refused no such document" if there is None else f"deleted {rest}"
        if name == "show":
            text = self.texts.get(int(rest))
            return "refused no such document" if text is None else f"text {text}"
        if name == "find" and rest.strip("(-"):
            return " ".join([f"found {len(self.hits(rest))}:", *map(str, self.hits(rest))])
        if name == "commit":
            self.mark()
        if name == "!open":
            self.open()
        return {"count": f"count {len(self.texts)} next {self.next}", "commit": "committed",
                "merge": "merged", "tidy": "tidied", "!open": "opened", "!close": ""}.get(name)

    def check(self) -> str:
        """How what a check tells begins."""
        return f"ok {len(self._marked[0])} documents next {self._marked[1]} segments "
