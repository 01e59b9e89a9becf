"""Mutants that are tried together: what an edit changes, and what a check of several tells of each."""
import pathlib
import sys
import tempfile
import unittest

TOOLS = pathlib.Path(__file__).resolve().parent.parent
sys.path.insert(0, str(TOOLS))

import batches  # noqa: E402

SOURCE = """\
//! Sums.
pub const MOST: u32 = 3;

/// Twice a number.
pub fn double(n: u32) -> u32
    requires { n < 100 }
    ensures { result ≡ n + n }
{
    n + n
}

impl Sums {
    /// What they come to.
    pub fn total(&self) -> u32
        ensures { result ≡ sum_of self.now }
    {
        let twice = double(self.first);
        twice + self.last
    }
}
"""
# What a check tells of both functions with a wrong body each.
TOLD = """\
./proofs/sums/Sums/total/Answers.antt:9:3: error: `returns`: the two types differ
note: src/sums.rt:5:1: it is not proved that what the function ensures holds when it returns
fn low::sums::double: no proof: expected answers in ./proofs/sums/double/Answers.antt
fn low::sums::Sums::total: not proved
logic=not-proved
"""
WAITING = """\
note: src/sums.rt:5:1: it is not proved that what the function ensures holds when it returns
fn low::sums::double: no proof: expected answers in ./proofs/sums/double/Answers.antt
fn low::sums::Sums::total: not proved; it calls `low::sums::double`, which is not proved
logic=not-proved
"""
NAMED = """\
./proofs/sums/Sums/total/Answers.antt:9:3: error: `returns`: record `X` has no field `double`
fn low::sums::double: proved
fn low::sums::Sums::total: not proved
logic=not-proved
"""


class Batches(unittest.TestCase):
    """Over a crate `low` of one file."""

    def setUp(self):
        room = tempfile.TemporaryDirectory()
        self.addCleanup(room.cleanup)
        self.folder = pathlib.Path(room.name, "low")
        (self.folder / "src").mkdir(parents=True)
        (self.folder / "src/sums.rt").write_text(SOURCE, "utf-8")
        self.double = self.change("double", "    n + n", "    n")
        self.total = self.change("total", "twice + self.last", "twice")

    def change(self, name, old, new):
        edit = self.folder / f"{name}.edit"
        edit.write_text(f"file: src/sums.rt\nold: {old}\nnew: {new}\n", "utf-8")
        return batches.change_of(edit, self.folder)

    def verdicts(self, output):
        told = batches.Told("low", output)
        return [told.verdict(it, SOURCE)[0] for it in (self.double, self.total)]

    def test_a_body_that_is_changed_is_that_of_its_function(self):
        self.assertEqual((self.double.path, self.double.function), ("src/sums.rt", "double"))
        self.assertEqual(self.total.function, "total")

    def test_a_change_beside_bodies_is_tried_alone(self):
        self.assertIsNone(self.change("most", "MOST: u32 = 3", "MOST: u32 = 4"))
        self.assertIsNone(self.change("clause", "n < 100", "n < 200"))

    def test_an_edit_that_does_not_apply_is_no_change(self):
        self.assertIsNone(self.change("gone", "n - n", "n"))
        self.assertIsNone(self.change("twice", "u32", "u64"))

    def test_goals_of_their_own_refuse_both(self):
        self.assertEqual(self.verdicts(TOLD), [batches.REFUSED, batches.REFUSED])

    def test_a_function_that_waits_is_not_refused(self):
        self.assertEqual(self.verdicts(WAITING), [batches.REFUSED, batches.WAITS])
        waited = batches.Told("low", WAITING).verdict(self.total, SOURCE)[1]
        self.assertEqual(waited, {"low::sums::double"})

    def test_a_name_that_is_gone_says_nothing(self):
        self.assertEqual(self.verdicts(NAMED), [batches.UNKNOWN, batches.UNKNOWN])

    def test_a_name_that_is_told_on_a_line_of_its_own_says_nothing(self):
        self.assertEqual(self.verdicts(NAMED.replace(" has no field", "\n  has no field")),
                         [batches.UNKNOWN, batches.UNKNOWN])

    def test_no_verdict_says_nothing(self):
        broken = TOLD.replace("logic=not-proved", "error: it can't be read")
        self.assertEqual(self.verdicts(broken), [batches.UNKNOWN, batches.UNKNOWN])

    def test_a_batch_has_one_change_of_a_function(self):
        other = self.change("other", "    n + n", "    2")
        batch, rest = batches.batch_of([self.double, other, self.total], "low", {})
        self.assertEqual((batch, rest), ([self.double, self.total], [other]))

    def test_what_waits_is_tried_without_what_it_waits_for(self):
        waits = {self.total: {"low::sums::double"}}
        for changes in ([self.double, self.total], [self.total, self.double]):
            batch, rest = batches.batch_of(changes, "low", waits)
            self.assertEqual((batch, rest), (changes[:1], changes[1:]))

    def test_halves_are_all_of_it(self):
        self.assertEqual(batches.halves([self.double, self.total]), [[self.double], [self.total]])
        self.assertEqual(batches.halves([self.double]), [[self.double]])


if __name__ == "__main__":
    unittest.main()
