"""No row passes on a program that lacks memory where none was refused."""

import os
import subprocess
import unittest
from unittest import mock

from . import memory, scripts

STORE = ("!create", "!open", "!check")


def lacking(is_once):
    """A player, in place of `subprocess.run`, that answers want of memory to what a store is asked:
    always, or so that the line is answered as it is written when it is asked again."""
    def run(command, **options):
        mode = command[1] if len(command) > 1 else ""
        told, ended = [], []
        for line in options["input"].splitlines():
            if line.startswith("!script"):
                ended.append(True)
                continue
            if not scripts.is_asked(line):
                continue
            asked, _, wanted = scripts.spelled(line.strip()).partition(" => ")
            is_short = not asked.startswith("!") or asked.startswith(STORE)
            got = wanted if is_once or not is_short else \
                "memory" if asked.startswith("!") else "refused memory"
            if mode:
                told.append(f"{'+' if is_short and mode == '--again' else '='} {got}")
            elif got != wanted and ended[-1]:
                ended[-1] = False
                told.append(f"{asked}\n  wanted: {wanted}\n  got:    {got}")
        if not mode:
            told.append(f"{sum(ended)} passed, {len(ended) - sum(ended)} failed")
        status = 0 if mode or all(ended) else 1
        return subprocess.CompletedProcess(command, status, "".join(f"{x}\n" for x in told), "")
    return mock.patch("subprocess.run", run)


def wrong(row):
    """What memory.py tells of a row on which no request is refused."""
    return "".join(memory.played((os.devnull, *row))[2])


class Lacking(unittest.TestCase):
    """On a program that always answers want of memory, or at first."""

    def test_each_script_fails(self):
        """As it is played by test_scripts."""
        with lacking(is_once=False):
            for row in (row for file in scripts.files() for row in file.rows):
                if row.kind == "script":
                    with self.subTest(row=row.title):
                        told = scripts.differences([scripts.input_of(row, row.settings[0])])
                        self.assertIn("memory", told)

    def test_each_row_fails(self):
        """As it is played by memory.py."""
        for is_once, fault in ((False, "nothing refused"), (True, "it lacks memory, and none")):
            with lacking(is_once):
                for row in memory.rows(False):
                    with self.subTest(row=row, is_once=is_once):
                        self.assertIn(fault, wrong(row))

    def test_a_creation_fails(self):
        """Whose disk is looked at."""
        with lacking(is_once=False):
            self.assertNotEqual(wrong(("", "a store is made")), "")
