#!/usr/bin/env python3
"""Whether the contracts are those at which all mutants were last refused.

usage: tools/seals.py      at the top of the repository

mutants/SEALS has a line for each crate with mutants: its name, their number, the day on which all of
them were refused, and a sum of

  - the contracts of its `src/`: signature and clauses of each function that has clauses, each ghost
    member, each law, with the head of the item that it stands in;
  - the contracts of the traits of other crates that it implements;
  - the pages of `specs/` that its files and those traits import, and what these import in turn;
  - its mutants.

Bodies, proofs, comments, layout and the order of items do not count. It proves nothing: where a sum
is another one it tells the command that tries the mutants again, and the status is 1. So it is where a
mutant no longer applies: each of its `old:` texts stands once in its file.
"""
import hashlib
import pathlib
import re
import sys

SEALS = "mutants/SEALS"

# Comments; then strings and characters, which may hold braces; then words and single signs.
TOKEN = re.compile(r"""
    //[^\n]* | /\*.*?\*/
  | "(?:\\.|[^"\\])*" | (?<![\w'])'(?:\\[^']+|[^'\\])'
  | \w[\w']* | \S
""", re.X | re.S)
PAGE_COMMENT = re.compile(r"--[^\n]*|\{-.*?-\}", re.S)
PAGE = re.compile(r"\bRattle\.(\w+)\.specs\.(\w+(?:\.\w+)*)")
CLAUSES = ("requires", "ensures")
ITEMS = ("impl", "trait", "struct", "enum")


class Reader:
    """The contracts of one source file."""

    def __init__(self, text):
        found = (token[0] for token in TOKEN.finditer(text))
        self.tokens = [token for token in found if not token.startswith(("//", "/*"))]
        self.at = 0
        self.depth = 0
        self.item = ""
        self.contracts = []

    def group(self):
        """The next group in braces, which begins here."""
        start, depth = self.at, 0
        while self.at < len(self.tokens):
            depth += {"{": 1, "}": -1}.get(self.tokens[self.at], 0)
            self.at += 1
            if depth == 0:
                break
        return " ".join(self.tokens[start:self.at])

    def until(self, *ends):
        """The words from here up to one of these outside parentheses and brackets, which stays."""
        start, depth = self.at, 0
        while self.at < len(self.tokens) and (depth or self.tokens[self.at] not in ends):
            depth += {"(": 1, "[": 1, ")": -1, "]": -1}.get(self.tokens[self.at], 0)
            self.at += 1
        return " ".join(self.tokens[start:self.at])

    def function(self):
        """A signature with its clauses, up to the body or the end of a trait's method."""
        words, has_clauses = [self.until("{", ";", *CLAUSES)], False
        while self.at < len(self.tokens) and self.tokens[self.at] in CLAUSES:
            words += [self.until("{"), self.group(), self.until("{", ";", *CLAUSES)]
            has_clauses = True
        if has_clauses:
            self.keep(" ".join(words))

    def ghost(self):
        """A ghost member or field: its name, and what stands in braces behind it."""
        words = [self.until("{", ";"), self.group()]
        while self.at < len(self.tokens) and self.tokens[self.at] in ("=", "by", ":"):
            words += [self.until("{", ";"), self.group()]
        self.keep(" ".join(words))

    def keep(self, contract):
        self.contracts.append((self.item, contract))

    def read(self):
        """All contracts of the file, each with the head of the item that it stands in."""
        while self.at < len(self.tokens):
            token = self.tokens[self.at]
            following = self.tokens[self.at + 1] if self.at + 1 < len(self.tokens) else ""
            if token == "ghost" and following == "use":
                self.until(";")
            elif token == "fn" and following != "(":
                self.item = self.item if self.depth else ""
                self.function()
            elif token == "ghost" or token in CLAUSES or token == "law":
                self.ghost()
            elif token in ITEMS and self.depth == 0:
                self.item = self.until("{", ";")
            else:
                self.depth += {"{": 1, "}": -1}.get(token, 0)
                self.at += 1
        return self.contracts


def trait_of(item):
    """The name of the trait that an item declares, if it declares one."""
    named = re.match(r"(?:unsafe )?trait (\w+)", item)
    return named[1] if named else None


def implemented(item):
    """The name of the trait that an item implements, if it implements one."""
    named = re.match(r"impl\b.*?(\w+)(?: <[^{]*>)? for ", item)
    return named[1] if named else None


class Tree:
    """The crates below a folder: their contracts, and the pages that these reach."""

    def __init__(self, top):
        self.top = pathlib.Path(top)
        self.contracts = {}
        self.traits = {}
        for folder in sorted(self.top.glob("crates/*/src")):
            crate = folder.parent.name
            self.contracts[crate] = [
                (file, contract)
                for file in sorted(folder.rglob("*.rt"))
                for contract in Reader(file.read_text(encoding="utf-8")).read()
            ]
            for file, (item, contract) in self.contracts[crate]:
                if trait_of(item):
                    self.traits.setdefault(trait_of(item), []).append((file, contract))

    def page(self, crate, path):
        """The file of a page that is imported by this path, unless it is of the toolchain's."""
        parts = path.split(".")
        for length in range(len(parts), 0, -1):
            file = self.top.joinpath("crates", crate, "specs", *parts[:length])
            if file.with_suffix(".antt").is_file():
                return file.with_suffix(".antt")
        return None

    def pages(self, files):
        """The pages that these files import, and what those import in turn."""
        found, left = {}, list(files)
        while left:
            text = left.pop().read_text(encoding="utf-8")
            for crate, path in PAGE.findall(text):
                page = self.page(crate, path)
                if page and page not in found:
                    found[page] = " ".join(PAGE_COMMENT.sub("", page.read_text("utf-8")).split())
                    left.append(page)
        return [(str(page.relative_to(self.top)), found[page]) for page in sorted(found)]

    def mutants(self, crate):
        return sorted(self.top.glob(f"mutants/{crate}/*.edit"))

    def sum_of(self, crate):
        """The sum of all that the crate's mutants were refused by."""
        own = [contract for _, contract in self.contracts[crate]]
        files = set(self.top.joinpath("crates", crate, "src").rglob("*.rt"))
        for trait in sorted({implemented(item) for item, _ in own} & set(self.traits)):
            own += [(f"trait {trait}", contract) for _, contract in self.traits[trait]]
            files |= {file for file, _ in self.traits[trait]}
        tried = [(edit.name, edit.read_text("utf-8")) for edit in self.mutants(crate)]
        told = repr((sorted(own), self.pages(sorted(files)), tried))
        return hashlib.sha256(told.encode()).hexdigest()[:32]

    def crates(self):
        """The crates that have mutants."""
        return sorted({edit.parent.name for edit in self.top.glob("mutants/*/*.edit")})

    def seals(self):
        """The lines of SEALS by their crate: the number of mutants, the day, the sum."""
        file = self.top / SEALS
        rows = file.read_text("utf-8").splitlines() if file.is_file() else []
        lines = [row.split() for row in rows if row and not row.startswith("#")]
        return {line[0]: line[1:] for line in lines}


def applied(edit, folder, texts):
    """Applies an edit to the texts of a crate's files, by their paths, which are read where they are
    not there yet. Why it does not apply, if it does not."""
    path, old, count = None, None, 0
    for line in edit.read_text("utf-8").splitlines():
        if line.startswith("file: "):
            path = line[len("file: "):].strip()
        elif line.startswith("old: "):
            old = line[len("old: "):]
        elif line.startswith("new:"):
            if path is None or old is None:
                return "a 'new:' line stands before its 'file:' or 'old:' line"
            if path not in texts:
                if not (folder / path).is_file():
                    return f"there is no file {path}"
                texts[path] = (folder / path).read_text("utf-8")
            found = texts[path].count(old)
            if found != 1:
                return f"{path} has its 'old:' text {found} times"
            texts[path] = texts[path].replace(old, line[len("new:"):].removeprefix(" "))
            old, count = None, count + 1
    return None if count else "it changes nothing"


def faults(tree):
    """What does not hold: a line of words each."""
    seals, crates = tree.seals(), tree.crates()
    for crate in crates:
        if crate not in tree.contracts:
            yield f"mutants/{crate}: there is no crate of that name"
            continue
        for edit in tree.mutants(crate):
            why = applied(edit, tree.top / "crates" / crate, {})
            if why:
                yield f"mutants/{crate}/{edit.name} does not apply: {why}"
        number = str(len(tree.mutants(crate)))
        if crate not in seals or seals[crate][:1] + seals[crate][2:] != [number, tree.sum_of(crate)]:
            yield (f"{crate}: a contract, a page of specs/ that it reaches or a mutant has changed "
                   f'since its mutants were tried: make mutants CRATES="{crate}"')
    for crate in seals.keys() - set(crates):
        yield f"mutants/SEALS has a line of {crate}, which has no mutants"


def main():
    tree = Tree(".")
    told = list(faults(tree))
    for line in told:
        print(f"seals: {line}", file=sys.stderr)
    if not told:
        count = sum(len(tree.mutants(crate)) for crate in tree.crates())
        print(f"seals: {count} mutants of {len(tree.crates())} crates stand as they were refused")
    sys.exit(1 if told else 0)


if __name__ == "__main__":
    main()
