"""The list of the wrong bodies that were planted names what is there: functions, mutants, clauses."""
import pathlib
import re
import unittest

TOP = pathlib.Path(__file__).resolve().parents[2]
LINE = re.compile(r"(\w+) (\w+)/(\w+)(?:: .+| = (\w+))?")


def texts(crate, *parts):
    """The sources and definitions of a crate."""
    for part in parts:
        for file in (TOP / "crates" / crate / part).rglob("*.*"):
            yield file.read_text(encoding="utf-8")


class Planted(unittest.TestCase):
    def setUp(self):
        text = (TOP / "mutants/PLANTED").read_text(encoding="utf-8")
        self.lines = [line for line in text.splitlines() if not line.startswith("#")]

    def test_each_function_stands_in_its_crate(self):
        for line in self.lines:
            told = LINE.fullmatch(line)
            self.assertTrue(told, f"{line}: a crate, a function and a bug are wanted")
            crate, function = told[1], told[2]
            self.assertTrue(any(re.search(rf"\bfn {function}\b", text)
                                for text in texts(crate, "src")),
                            f"{crate} has no function {function}")

    def test_what_was_let_through_is_a_mutant_and_has_its_clause(self):
        closed = [told.groups() for told in map(LINE.fullmatch, self.lines) if told and told[4]]
        self.assertTrue(closed)
        for crate, _, bug, clause in closed:
            self.assertTrue((TOP / "mutants" / crate / f"{bug}.edit").exists(), f"{crate}: {bug}")
            self.assertTrue(any(re.search(rf"\b{clause}\b", text)
                                for text in texts(crate, "src", "specs")), f"{crate}: {clause}")

    def test_each_stands_once_and_in_order(self):
        self.assertTrue(self.lines)
        self.assertEqual(self.lines, sorted(set(self.lines)))


if __name__ == "__main__":
    unittest.main()
