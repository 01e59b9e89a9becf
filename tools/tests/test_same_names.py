"""Names in documents are those of the code: crates and their layers, trusted crates, named wrong
bodies, laws, words of contracts, targets."""
import pathlib
import re
import sys
import unittest

TOP = pathlib.Path(__file__).resolve().parents[2]
sys.path.insert(0, str(TOP / "tools"))

from draw_crates import layers  # noqa: E402

QUOTED = re.compile(r"`([^`]+)`")
DOCUMENTS = sorted([*TOP.glob("*.md"), *TOP.glob("docs/*.md")])
# Calls of the system, which no crate names.
CALLS = {"fdatasync", "flock", "fsync", "ftruncate", "pread", "pwrite", "statx"}


def text_of(path):
    return (TOP / path).read_text("utf-8")


def section(text, head):
    """What stands below a head, up to the next head as high."""
    text = f"\n{text}\n## "
    return text.partition(f"\n## {head}\n")[2].partition("\n## ")[0]


def words_of(crates):
    """The words of the contracts, definitions and code of crates."""
    files = [file for crate in crates for part in ("src", "specs")
             for file in TOP.joinpath("crates", crate, part).rglob("*")
             if file.suffix in (".rt", ".antt")]
    return {word for file in files for word in re.findall(r"\w+", file.read_text("utf-8"))}


def names_in(text):
    """The words that a text quotes."""
    return {word for quoted in QUOTED.findall(text) for word in re.findall(r"[A-Za-z_]\w+", quoted)}


def rows(text):
    """The cells of the rows of the tables of a text."""
    return [[cell.strip() for cell in line.strip("|").split(" | ")] for line in text.splitlines()
            if line.startswith("| ")]


class Crates(unittest.TestCase):
    """crates.txt, the crates and what documents say of them."""

    LAYERS, LIBRARIES = layers(TOP)
    OWN = {name for names in LAYERS.values() for name in names}

    def test_architecture_has_the_layers(self):
        text = text_of("docs/ARCHITECTURE.md")
        for layer, names in self.LAYERS.items():
            with self.subTest(layer=layer):
                told = re.findall(r"\*\*(\w+)\*\*", section(text, layer.capitalize()))
                self.assertEqual(sorted(told), sorted(names))

    def test_the_trusted_crates(self):
        named = {name for names in self.LIBRARIES.values() for name in names} - self.OWN
        row, = [cells for cells in rows(text_of("README.md")) if cells[0] == "trusted"]
        self.assertEqual(set(QUOTED.findall(row[1])), named)
        item = section(text_of("docs/PROVED.md"), "Trusted").partition("- The statements of")[2]
        told = set(QUOTED.findall(item.partition("\n- ")[0]))
        self.assertEqual(told - self.OWN, named)


class Names(unittest.TestCase):
    """What documents name is there."""

    def test_the_named_wrong_bodies(self):
        edits = TOP.glob("crates/*/must-fail/*.edit")
        there = {(edit.parents[1].name, edit.stem) for edit in edits}
        text = section(text_of("docs/TESTING.md"), "Wrong bodies")
        told = []
        items = text.partition("The named wrong bodies are:\n\n")[2].partition("\n\n")[0]
        for item in re.split(r"^- ", items, flags=re.M)[1:]:
            crates, names = map(QUOTED.findall, item.partition(":")[::2])
            told += zip(crates * len(names) if len(crates) == 1 else crates, names, strict=True)
        self.assertEqual(sorted(told), sorted(there))

    def test_laws(self):
        there = {name for file in TOP.glob("crates/*/src/**/laws.rt")
                 for name in re.findall(r"\bfn (\w+)", file.read_text("utf-8"))}
        for document in DOCUMENTS:
            text = " ".join(document.read_text("utf-8").split())
            told = set(re.findall(r"laws::(\w+)", text))
            for names in re.findall(r"laws::\{([^}]*)\}", text):
                told |= set(names.split(", "))
            with self.subTest(document=document.name):
                self.assertEqual(told - there, set())

    def test_what_carries_each_claim(self):
        libraries = layers(TOP)[1]
        crate, there, count = None, set(), 0
        for line in re.sub(r"\n +(?!- )", " ", text_of("docs/PROVED.md")).splitlines():
            head = re.fullmatch(r"\*\*`(\w+)`\*\*(?:, where .*)?", line)
            if head:
                crate = head[1]
                there = words_of([crate, *(name for name in libraries[crate] if name in libraries)])
            elif line.startswith("## "):
                crate = None
            elif crate and " · " in line:
                told = names_in(line.rpartition(" · ")[2]) - set(libraries)
                count += len(told)
                with self.subTest(crate=crate, claim=line[:60]):
                    self.assertEqual(told - there, set())
        self.assertGreater(count, 500)

    def test_names_in_prose(self):
        there = words_of(layers(TOP)[1]) | set(layers(TOP)[1]) | CALLS
        for page in ("ARCHITECTURE", "CRASHES", "GLOSSARY", "LIMITS", "MEANING",
                     "READING_CONTRACTS"):
            text = re.sub(r"```.*?```", "", text_of(f"docs/{page}.md"), flags=re.S)
            quoted = {" ".join(each.split()) for each in QUOTED.findall(text)}
            told = {each for each in quoted if re.fullmatch(r"[A-Za-z_]\w*(::[\w{}, ]+)*", each)}
            with self.subTest(page=page):
                self.assertTrue(told)
                self.assertEqual(names_in("".join(f"`{each}`" for each in told)) - there, set())

    def test_the_words_of_contracts(self):
        count, crate, pages = 0, None, []
        for line in re.sub(r"\n +", " ", text_of("docs/MEANING.md")).splitlines():
            head = re.fullmatch(r"\*\*`(\w+)`\*\*", line)
            crate = head[1] if head else None if line.startswith("## ") else crate
            item = re.match(r"- (?:\*([\w, ]+)\*: )?(`\w+`(?:, `\w+`)*)", line)
            if crate and item:
                pages = item[1].split(", ") if item[1] else pages
                there = " ".join(text_of(f"crates/{crate}/specs/{page}.antt") for page in pages)
                for word in QUOTED.findall(item[2]):
                    count += 1
                    self.assertRegex(there, rf"\b{word}\b", f"{crate}, {pages}")
        self.assertGreater(count, 150)

    def test_the_contract_that_is_read(self):
        text = text_of("docs/READING_CONTRACTS.md")
        path, = re.findall(r"The `find` of the store, in `([^`]+)`", text)
        contract, = re.findall(r"```rust\n(.*?)```", text, re.S)
        self.assertIn(" ".join(contract.split()), " ".join(text_of(path).split()))

    def test_targets_of_make(self):
        there = set(re.findall(r"^(\w+):", text_of("Makefile"), re.M))
        for document in DOCUMENTS:
            told = set(re.findall(r"\bmake (\w+)`", document.read_text("utf-8")))
            with self.subTest(document=document.name):
                self.assertEqual(told - there, set())


if __name__ == "__main__":
    unittest.main()
