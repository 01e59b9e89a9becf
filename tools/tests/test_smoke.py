"""What the last line of the smoke test says was not shown."""
import pathlib
import sys
import unittest

TOOLS = pathlib.Path(__file__).resolve().parent.parent
sys.path.insert(0, str(TOOLS))

import smoke  # noqa: E402

FIRST = """\
skipped in client, test_browser.Page test_dark: needs chromium
6 tests of client were skipped
9 tests of client were left out as long
20 of 90 tests of client were left out for want of time
"""
SECOND = """\
1 tests of client were skipped
5 of 80 tests of client were left out for want of time
"""


class LastLines(unittest.TestCase):
    """The last line of a run."""

    def says(self, ended, start, *unshown):
        line = smoke.last_line(ended, 7.4)
        self.assertTrue(line.startswith(f"{start} in 7 s. Not shown: "), line)
        self.assertTrue(line.endswith(smoke.NEVER_SHOWN), line)
        told = line.partition("Not shown: ")[2].removesuffix(smoke.NEVER_SHOWN)
        self.assertEqual(told, "".join(f"{each}; " for each in unshown))

    def test_all_was_run(self):
        ended = [smoke.Ended("seals", smoke.PASSED, "all stand\n"),
                 smoke.Ended("rows 1/1", smoke.PASSED, "Ran 9 tests in 3.0s\n\nOK\n")]
        self.says(ended, "2 passed, 0 failed")

    def test_tests_of_all_parts_are_summed(self):
        ended = [smoke.Ended("client 1/2", smoke.PASSED, FIRST),
                 smoke.Ended("client 2/2", smoke.FAILED, SECOND),
                 smoke.Ended("rows 1/1", smoke.PASSED,
                             "3 of 60 tests of rows were left out for want of time\n")]
        self.says(ended, "2 passed, 1 failed",
                  "25 tests of client, for which there was no time",
                  "3 tests of rows, for which there was no time",
                  "9 tests of client, which are long",
                  "7 tests of client, which were skipped")

    def test_what_did_not_end_or_begin(self):
        ended = [smoke.Ended("building pk_find", smoke.FAILED),
                 smoke.Ended("client", smoke.NOT_BUILT),
                 smoke.Ended("rows 1/1", smoke.BROKEN_OFF)]
        self.says(ended, "0 passed, 3 failed",
                  "client, whose program was not built",
                  "what was left of rows 1/1, which was broken off")


if __name__ == "__main__":
    unittest.main()
