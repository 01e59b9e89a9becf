"""Tests that run the built program, in a folder of their own, which is empty at first."""

import os
import subprocess
import sys
import tempfile
import unittest

import preload
import run_tests


class ProgramTest(unittest.TestCase):
    """A test that runs the program."""

    program = ""

    def setUp(self):
        folder = tempfile.TemporaryDirectory()
        self.addCleanup(folder.cleanup)
        self.folder = folder.name

    def run_program(self, *words, lines=b"", environment=None):
        """The status of the program on these words, what it printed, and what it told as faults."""
        ran = subprocess.run([self.program, *words], cwd=self.folder, input=lines,
                             capture_output=True, env=environment, timeout=30, check=False)
        return ran.returncode, ran.stdout, ran.stderr

    def files(self):
        """The names in the folder of the test."""
        return sorted(os.listdir(os.fsencode(self.folder)))

    def place_of(self, name):
        """The path of a file in the folder of the test."""
        return os.path.join(self.folder, name)


class NotedTest(ProgramTest):
    """A test that notes the calls of the system which reach a file, by note_calls.c, which is
    loaded over the program; its head has the settings."""

    @classmethod
    def setUpClass(cls):
        place = tempfile.TemporaryDirectory()
        cls.addClassCleanup(place.cleanup)
        cls.library = preload.built("note_calls", place.name)
        cls.notes = os.path.join(place.name, "notes")

    def noting(self, **settings):
        """The environment of a run that is noted. What was noted before goes."""
        with open(self.notes, "w", encoding="utf-8"):
            pass
        return {"LD_PRELOAD": self.library, "NOTE_CALLS": self.notes,
                **{name: str(value) for name, value in settings.items()}}

    def noted(self, *words, lines=b"", **settings):
        """What a run came to, and the calls that were noted of it."""
        came_to = self.run_program(*words, lines=lines, environment=self.noting(**settings))
        with open(self.notes, encoding="utf-8") as notes:
            return came_to, notes.read().splitlines()

    def counted(self, notes):
        """The calls that can be made to fail."""
        return [note for note in notes if not note.startswith(("print", "wait"))]


def main(name):
    """Runs the tests of the module that was started, over the program of the first argument."""
    ProgramTest.program = os.path.abspath(sys.argv[1])
    result = unittest.main(argv=sys.argv[:1], exit=False).result
    run_tests.tell(name, result)
    sys.exit(not result.wasSuccessful())
