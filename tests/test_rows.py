"""That each row shows a promise of README.md, and each promise is shown by a row."""

import re
import unittest

from . import scripts
from .layers import lines


class Rows(unittest.TestCase):
    """The rows and the promises."""

    def is_shown(self, head, files):
        """Each promise of the table with this head is shown by rows of the files, and no other."""
        text = (scripts.HERE / "README.md").read_text("utf-8")
        table = text.partition(f"| {head} |")[2].partition("\n\n")[0]
        promises = re.findall(r"^\| `([^`]+)` \|", table, re.MULTILINE)
        shown = {row.promise for file in files for row in file.rows}
        self.assertEqual(shown, set(promises))

    def test_each_promise_is_shown_and_each_row_shows_one(self):
        """The table is in README.md."""
        self.is_shown("`shows`", scripts.files())

    def test_so_it_is_with_the_lower_layers(self):
        """By the second table."""
        self.is_shown("`shows` of a row", lines.files())
