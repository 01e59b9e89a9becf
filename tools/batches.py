"""Mutants that one check tries together.

The prover tells of each function by itself. So mutants of different functions can stand in one
text, and what a check of it tells of a mutant's function is what it would tell of the mutant alone,
but where the function waits for the proof of another that is changed too.
"""
import pathlib
import re
import typing

import seals

FUNCTION = re.compile(r"(\s*)(?:pub(?:\([^)]*\))? )?(?:const )?fn (\w+)")
STATUS = re.compile(r"fn ([\w:+]+): (.*)")
PLACE = re.compile(r"(?:note: )?(?:\./)?(\S+?):(\d+):\d+:")
GOAL = re.compile(r": error|it is not proved")
CALLED = re.compile(r"`([\w:+]+)`")
# What a proof says of a name that the edit took away tells nothing of the contract.
NAME_GONE = re.compile(
    r"(note: )?(\./)?proofs/.*(has no field|is not in scope|has no `|was not admitted)")
NO_GOAL = ("not proved", "expected answers", "did not prove")
NOT_PROVED = "logic=not-proved"

REFUSED, WAITS, UNKNOWN = "refused", "waits", "unknown"


class Function(typing.NamedTuple):
    """Where a function stands in its file: its name, its first and its last line, from 1 on."""
    name: str
    first: int
    last: int


class Change(typing.NamedTuple):
    """A mutant that changes the body of one function."""
    edit: pathlib.Path
    path: str
    function: str

    def modules(self, crate):
        """The path of the function's module, as the prover writes it."""
        parts = pathlib.PurePath(self.path).with_suffix("").parts[1:]
        return "::".join([crate, *(part for part in parts if part != "lib")]) + "::"

    def is_of(self, name, crate):
        """Whether a function's full name is that of the one that is changed."""
        return name.startswith(self.modules(crate)) and name.rpartition("::")[2] == self.function


def end_of(lines, at, indent):
    """The last line of the function that begins at a line."""
    for after in range(at, len(lines)):
        if lines[after].rstrip() == indent + "}":
            return after + 1
    return len(lines)


def functions(text):
    """The functions of a file."""
    lines = text.split("\n")
    found = ((at, FUNCTION.match(line)) for at, line in enumerate(lines))
    return [Function(match[2], at + 1, end_of(lines, at, match[1])) for at, match in found if match]


def changed_lines(old, new):
    """The first and the last line of a text that another one has otherwise, from 1 on."""
    before, after = old.split("\n"), new.split("\n")
    first = next(at for at, pair in enumerate(zip(before, after)) if pair[0] != pair[1])
    behind = next(at for at, pair in enumerate(zip(reversed(before), reversed(after)))
                  if pair[0] != pair[1])
    return first + 1, max(first + 1, len(before) - behind)


def change_of(edit, folder):
    """The change that an edit of a crate is, unless it changes more than one function's body."""
    texts = {}
    if seals.applied(edit, folder, texts) or len(texts) != 1:
        return None
    (path, new), = texts.items()
    old = (folder / path).read_text("utf-8")
    if old == new or not path.startswith("src/"):
        return None
    first, last = changed_lines(old, new)
    around = [it for it in functions(old) if it.first <= first and last <= it.last]
    if not around:
        return None
    function = max(around, key=lambda it: it.first)
    lines = old.split("\n")
    opened = any(line.rstrip().endswith("{") for line in lines[function.first - 1:first - 1])
    return Change(edit, path, function.name) if opened else None


def whole_lines(output):
    """The lines of an output, each with those behind it by which it goes on, which are indented."""
    whole = []
    for line in output.split("\n"):
        if line.startswith("  ") and whole:
            whole[-1] += line
        else:
            whole.append(line)
    return whole


class Told:
    """What a check told of a crate that it did not prove."""

    def __init__(self, crate, output):
        self.crate, lines = crate, whole_lines(output)
        self.is_verdict = any(line.startswith(NOT_PROVED) for line in lines)
        self.statuses = {match[1]: match[2] for match in map(STATUS.match, lines) if match}
        self.places = [(match[1], int(match[2]), line) for line in lines
                       if (match := PLACE.match(line)) and GOAL.search(line)]

    def function_of(self, change):
        """The full name of the one function that a change is of, if it is not proved."""
        named = [name for name, status in self.statuses.items()
                 if change.is_of(name, self.crate) and not status.startswith("proved")]
        return named[0] if len(named) == 1 else None

    def goals_of(self, change, name, text):
        """What was told of a function: at its lines, and in its proof's answers."""
        spans = [it for it in functions(text) if it.name == change.function]
        answers = f"proofs/{'/'.join(name.split('::')[1:])}/"
        for path, line, said in self.places:
            is_there = path == change.path and any(it.first <= line <= it.last for it in spans)
            if (is_there or path.startswith(answers)) and not NAME_GONE.match(said):
                yield said

    def waited_for(self, name):
        """The functions without whose proofs a function has none."""
        found, left = set(), [name]
        while left:
            status = self.statuses.get(left.pop(), "")
            called = set(CALLED.findall(status.partition("it calls")[2])) - found
            found |= called
            left += called
        return found

    def verdict(self, change, text):
        """What is told of a change, of whose file this is the text that was checked; and, where its
        function waits for others, those."""
        name = self.function_of(change)
        if not self.is_verdict or name is None:
            return UNKNOWN, set()
        status = self.statuses[name]
        if any(words in status for words in NO_GOAL) and any(self.goals_of(change, name, text)):
            return REFUSED, set()
        return (WAITS, self.waited_for(name)) if "it calls" in status else (UNKNOWN, set())


def hinders(one, other, crate, waits):
    """Whether a change can't be tried beside another: it is of the same function, or of one that
    the other's was found to wait for."""
    is_same = (one.path, one.function) == (other.path, other.function)
    return is_same or any(one.is_of(name, crate) for name in waits.get(other, ()))


def batch_of(changes, crate, waits):
    """Changes that can be tried together, and those that are left then."""
    batch, rest = [], []
    for change in changes:
        is_hindered = any(hinders(one, other, crate, waits) for it in batch
                          for one, other in ((it, change), (change, it)))
        (rest if is_hindered else batch).append(change)
    return batch, rest


def halves(changes):
    """Two parts of changes of which a check told nothing together."""
    middle = len(changes) // 2
    return [part for part in (changes[:middle], changes[middle:]) if part]
