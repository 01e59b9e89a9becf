"""The player itself: a line that is answered otherwise is told by its file and number, and so."""

import unittest

from . import scripts

# A script, the line that is answered otherwise, and that answer.
WRONG = (
    ("!disk 32768\n!create => created\nadd x => added 2\ncount", 3, "added 1"),
    ("!disk 32768\n!create => created\nadd x\n", 3, "added 1"),
    ("!disk 32768\n!open => opened\n", 2, "not a store"),
    ("!disk 32768\n\n!bytes 0 1 => A7\n", 3, "00"),
    ("!disk 32768\n!set 9 1\n!nonzero => 1\n!nonzero => 2\n", 4, "1"),
    ("!disk 32768\n!create => created\n!close\n!reads => 2\n!reads => 1\n", 5, "2"),
    ("count => count 0 next 1\n", 1, "no store"),
    ("!disk 32768\n!set 32768 00\n", 2, "outside"),
    ("!disk 32768\n!stop 4\n!create => created\n", 3, "disk"),
    ("!disk 32768\n!stop 2 write\n!create => created\n", 3, "disk"),
    ("!disk 32768\n!create => created\n!close\n!calls => srrwsw\n", 4, "srrwsws"),
    ("!disk 32768\n# no line\n!tidy\n", 3, "no such step"),
)


class Player(unittest.TestCase):
    """What it tells."""

    def test_a_wrong_answer_is_told(self):
        """With its line."""
        for script, line, answer in WRONG:
            with self.subTest(script=script):
                told = scripts.differences([f"!script wrong\n{script}\n"]).splitlines()
                self.assertTrue(told[0].startswith(f"wrong:{line}: "), told)
                self.assertEqual(told[2], f"  got:    {answer}")

    def test_one_wrong_script_of_three_is_told(self):
        """And the lines behind it are passed over."""
        good, wrong = "!script good\n!disk 512\n", "!script wrong\n!disk 512\n!set 512 00\n!bad\n"
        self.assertEqual(scripts.differences([good, wrong, good]),
                         "wrong:2: !set 512 00\n  wanted: \n  got:    outside\n")
