"""The seals over a small tree of two crates, whose contract reaches a page two imports away."""
import pathlib
import shutil
import subprocess
import sys
import tempfile
import unittest

TOOLS = pathlib.Path(__file__).resolve().parent.parent
sys.path.insert(0, str(TOOLS))

import mutants  # noqa: E402
import seals  # noqa: E402

LOW_TRAIT = """\
//! What a source promises.
ghost use Rattle.low.specs.Counts.{IsCounted};

pub trait Source {
    ghost content: { Self → List ℕ };

    fn ask(&mut self, out: &mut [u8; 4]) -> bool
        requires { length out.old ≡ 4 }
        ensures asked { IsCounted self.old self.new result };
}
"""
HIGH_SOURCE = """\
//! Twice a number.
ghost use Rattle.high.specs.Twice.{twice};

use low::Source;

// Its words may hold a brace: { here, and "{" there.
pub fn double(n: u32) -> u32
    requires { n < 100 }
    ensures is { result ≡ twice n }
{
    let open = '{';
    n + n
}

impl Source for Doubles {
    ghost content = { λ d. d.bytes };

    fn ask(&mut self, out: &mut [u8; 4]) -> bool {
        true
    }
}
"""
FILES = {
    "crates/low/src/lib.rt": LOW_TRAIT,
    "crates/low/specs/Counts.antt": "-- How often it was asked.\npub record IsCounted where\n",
    "crates/low/specs/Numbers.antt": "add : ℕ → ℕ → ℕ\nadd a b = a + b\n",
    "crates/low/specs/Unused.antt": "none : ℕ\nnone = 0\n",
    "crates/high/src/lib.rt": HIGH_SOURCE,
    "crates/high/specs/Twice.antt": "-- Twice a number.\n"
                                    "use Rattle.high.specs.Sums.{sum}\ntwice n = sum n n\n",
    "crates/high/specs/Sums.antt": "use Rattle.low.specs.Numbers.{add}\nsum = add\n",
    "mutants/high/n_alone.edit": "file: src/lib.rt\nold:     n + n\nnew:     n\n",
}


class Seals(unittest.TestCase):
    def setUp(self):
        self.top = pathlib.Path(tempfile.mkdtemp())
        self.addCleanup(shutil.rmtree, self.top)
        for name, text in FILES.items():
            self.write(name, text)
        mutants.write_seal(seals.Tree(self.top), "high")

    def write(self, name, text):
        file = self.top / name
        file.parent.mkdir(parents=True, exist_ok=True)
        file.write_text(text, "utf-8")

    def change(self, name, old, new):
        text = (self.top / name).read_text("utf-8")
        self.assertEqual(text.count(old), 1)
        self.write(name, text.replace(old, new))

    def run_seals(self):
        return subprocess.run([sys.executable, TOOLS / "seals.py"], cwd=self.top,
                              capture_output=True, text=True, check=False)

    def assert_holds(self):
        ran = self.run_seals()
        self.assertEqual((ran.returncode, ran.stderr), (0, ""))
        self.assertEqual(ran.stdout, "seals: 1 mutants of 1 crates stand as they were refused\n")

    def assert_broken(self, *words):
        ran = self.run_seals()
        self.assertEqual((ran.returncode, ran.stdout), (1, ""))
        for word in words:
            self.assertIn(word, ran.stderr)

    def test_it_holds_as_it_was_written(self):
        self.assert_holds()

    def test_a_changed_body_needs_no_run(self):
        self.change("crates/high/src/lib.rt", "let open = '{';", "let open = '}';")
        self.change("crates/high/src/lib.rt", "        true\n", "        false\n")
        self.assert_holds()

    def test_comments_and_layout_need_no_run(self):
        self.change("crates/high/src/lib.rt", "// Its words", "// The words")
        self.change("crates/high/src/lib.rt", "    requires { n < 100 }\n    ensures",
                    "    requires { n\n        < 100 }\n\n    ensures")
        self.change("crates/high/specs/Twice.antt", "-- Twice a number.\n", "-- Two of it.\n\n")
        self.assert_holds()

    def test_the_order_of_items_needs_no_run(self):
        first, second = HIGH_SOURCE.split("impl Source", 1)
        head, function = first.split("// Its words", 1)
        self.write("crates/high/src/lib.rt",
                   f"{head}impl Source{second}\n// Its words{function}")
        self.assert_holds()

    def test_a_changed_clause_wants_a_run(self):
        for old, new in (("n < 100", "n < 90"), ("result ≡ twice n", "result ≡ twice 1"),
                         ("requires { n < 100 }\n", ""), ("λ d. d.bytes", "λ d. []")):
            with self.subTest(old=old):
                self.write("crates/high/src/lib.rt", HIGH_SOURCE)
                self.change("crates/high/src/lib.rt", old, new)
                self.assert_broken("high: a contract", 'make mutants CRATES="high"')

    def test_a_page_two_imports_away_wants_a_run(self):
        self.change("crates/low/specs/Numbers.antt", "a + b", "a + b + 1")
        self.assert_broken('make mutants CRATES="high"')

    def test_a_page_that_nothing_imports_needs_no_run(self):
        self.change("crates/low/specs/Unused.antt", "none = 0", "none = 1")
        self.assert_holds()

    def test_a_clause_of_an_implemented_trait_wants_a_run(self):
        self.change("crates/low/src/lib.rt", "≡ 4", "≤ 4")
        self.assert_broken('make mutants CRATES="high"')

    def test_a_page_of_an_implemented_trait_wants_a_run(self):
        self.change("crates/low/specs/Counts.antt", "where", "where\n  pub once : ⊤")
        self.assert_broken('make mutants CRATES="high"')

    def test_a_forged_sum_is_found(self):
        text = (self.top / seals.SEALS).read_text("utf-8")
        self.write(seals.SEALS, text[:-5] + ("0000\n" if text[-5:] != "0000\n" else "1111\n"))
        self.assert_broken('make mutants CRATES="high"')

    def test_a_crate_without_a_line_is_found(self):
        self.write(seals.SEALS, mutants.HEAD)
        self.assert_broken('make mutants CRATES="high"')

    def test_a_line_without_mutants_is_found(self):
        (self.top / "mutants/high/n_alone.edit").unlink()
        self.assert_broken("mutants/SEALS has a line of high")

    def test_a_mutant_more_wants_a_run(self):
        self.write("mutants/high/n_and_1.edit", "file: src/lib.rt\nold: n + n\nnew: n + 1\n")
        self.assert_broken('make mutants CRATES="high"')

    def test_a_mutant_whose_place_is_gone_is_found(self):
        self.change("crates/high/src/lib.rt", "n + n", "2 * n")
        self.assert_broken("mutants/high/n_alone.edit does not apply",
                           "has its 'old:' text 0 times")

    def test_a_mutant_with_two_places_is_found(self):
        self.change("crates/high/src/lib.rt", "    n + n\n", "    n + n;\n    n + n\n")
        self.assert_broken("has its 'old:' text 2 times")


class Results(unittest.TestCase):
    """What `rt must-fail` says, and what counts as refused."""

    SAID = """\
rt: must-fail high/one.edit: refused, as it must be: src/lib.rt:9:1: error: `double`: no proof
rt: must-fail high/two.edit: refused, as it must be (only because a proof file names what the edit took away, so ..)
rt: must-fail high/three.edit: NOT REFUSED: the crate is still proved with this edit
rt: must-fail high/four.edit: BAD EDIT: it did not reach the prover
"""

    def test_only_a_refusal_at_a_goal_counts(self):
        edits = [pathlib.Path(f"{name}.edit") for name in ("one", "two", "three", "four", "five")]
        told = dict(mutants.survivors(edits, mutants.results(self.SAID)))
        self.assertEqual(sorted(told), ["five.edit", "four.edit", "three.edit", "two.edit"])
        self.assertEqual(told["five.edit"], "it was not tried")


if __name__ == "__main__":
    unittest.main()
