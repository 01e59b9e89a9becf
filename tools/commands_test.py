#!/usr/bin/env python3
"""Tests of the built program's command lines: the status of each and what it prints, on files.

    tools/commands_test.py PATH-OF-pk_find

Each test runs in a folder of its own, which is empty at first. It ends with 1 where a test failed.
"""

import os
import subprocess

import program_case
from program_case import ProgramTest

UNIT = 512
LEAST = 64 * UNIT


class CommandLines(ProgramTest):
    """What is refused, and what is told of itself."""

    def test_refused_command_lines(self):
        for line in (
                "",
                "frobnicate",
                "--units 64",
                "run",
                "run s t",
                "run s --units 64",
                "read",
                "read s t",
                "check",
                "check s t",
                "check s --units 64",
                "create",
                "create refused",
                "create --units 64",
                "create refused t --units 64",
                "create refused --units",
                "create refused --units 63",
                "create refused --units 2147483649",
                "create refused --units many",
                "create refused --units 64 --units 64",
        ):
            with self.subTest(line=line):
                status, printed, told = self.run_program(*line.split(), lines=b"count\n")
                self.assertEqual((status, printed), (2, b""))
                self.assertNotEqual(told, b"")
        self.assertEqual(self.files(), [])

    def test_help(self):
        for line, words in (
                ("--help", b"create"),
                ("help", b"run"),
                ("run --help", b"commit "),
                ("help run", b"NOT green"),
                ("run --help", b"merge "),
                ("run --help", b"tidy "),
                ("create --help", b"512 bytes"),
                ("help create", b"--units <N>"),
                ("read --help", b"read only"),
                ("check --help", b"next 2612 segments 7"),
                ("help check", b"pk_find: damaged"),
                ("--version", b"pk_find "),
                ("-V", b"pk_find "),
        ):
            with self.subTest(line=line):
                status, printed, told = self.run_program(*line.split())
                self.assertEqual((status, told), (0, b""))
                self.assertIn(words, printed)

    # What it does, and where its own help ends.
    COMMANDS = {
        "create": ("Makes a file with an empty store in it",
                   "makes a store of 32 MiB in the file `notes`, which must not be there yet."),
        "grow": ("Gives the store in a file more units",
                 "else can write the store meanwhile."),
        "run": ("Answers commands from standard input, with the store in a file",
                "only once the machine was restarted: until then it may show bytes that it could not "
                "write."),
        "read": ("Answers questions from standard input, beside whoever writes the file",
                 "on beside them for a second, and then answers `refused disk`."),
        "check": ("Reads all that is committed in the store of a file, and compares it",
                  "takes to make, and nobody else can write the store meanwhile."),
    }

    def test_each_command_has_its_own_help(self):
        listed = self.run_program("--help")[1].decode().splitlines()
        for name, (line, end) in self.COMMANDS.items():
            with self.subTest(name=name):
                self.assertIn(f"  {name:<6}  {line}", listed)
                told = self.run_program(name, "--help")[1].decode().splitlines()
                self.assertEqual((told[0], told[-1]), (line, end))


class Files(ProgramTest):
    """Stores in files, and files that are none."""

    CREATE = "create", "s", "--units", "64"

    def put(self, content):
        """Makes the file anew, of these bytes."""
        with open(self.place_of("s"), "wb") as file:
            file.write(content)

    def content(self):
        """The bytes of the file."""
        with open(self.place_of("s"), "rb") as file:
            return bytearray(file.read())

    def comes_to(self, *words, lines=b"", printed=b"", told=b""):
        """A command prints this, or tells that as a fault, and has the status of it."""
        ran = self.run_program(*words, lines=lines)
        self.assertEqual(ran, (1 if told else 0, printed, told))

    def test_documents_outlive_a_session(self):
        self.comes_to(*self.CREATE, printed=b"created 64 units\n")
        self.assertEqual(len(self.content()), LEAST)
        self.comes_to(*self.CREATE, told=b"pk_find: exists\n")
        self.comes_to("check", "s", lines=b"count\n",
                      printed=b"ok 0 documents next 1 segments 0\n")
        self.comes_to("run", "s", lines=b"add red apple\nadd green pear\ncommit\nadd red pear\n"
                      b"find pear\nquit\n", printed=b"added 1\nadded 2\ncommitted\nadded 3\n"
                      b"found 2: 2 3\nbye\n")
        self.comes_to("run", "s", lines=b"find pear\nfind red\nshow 1\ncount\n",
                      printed=b"found 1: 2\nfound 1: 1\ntext red apple\ncount 2 next 3\n")
        self.comes_to("read", "s", lines=b"find pear\nadd x\ncount\nquit\n",
                      printed=b"found 1: 2\nrefused read only\ncount 2 next 3\nbye\n")
        self.comes_to("check", "s", printed=b"ok 2 documents next 3 segments 1\n")

    # In the last one gate A is open, and the body behind it is zeros.
    NO_STORES = (
        (bytes(100), b"pk_find: bad length\n"),
        (bytes(LEAST), b"pk_find: not a store\n"),
        (b"\xa7" + bytes(LEAST - 1), b"pk_find: damaged\n"),
    )

    def test_files_without_a_store(self):
        self.comes_to("run", "s", lines=b"count\n", told=b"pk_find: missing\n")
        for content, told in self.NO_STORES:
            self.put(content)
            self.comes_to("run", "s", lines=b"count\n", told=told)
        self.comes_to(*self.CREATE, told=b"pk_find: exists\n")
        self.assertEqual(self.content(), self.NO_STORES[-1][0])
        self.comes_to("create", "no_folder/s", "--units", "64", told=b"pk_find: disk\n")

    def test_files_without_a_sound_store(self):
        self.comes_to("check", "s", told=b"pk_find: missing\n")
        for content, told in self.NO_STORES:
            self.put(content)
            self.comes_to("check", "s", told=told)

    def test_a_changed_text_is_told_by_a_check(self):
        # The text stands behind 24 bytes of header and 12 of directory, in the segment at unit 34.
        # A session that does not read it goes on.
        place = 34 * UNIT + 24 + 12
        self.run_program(*self.CREATE)
        self.comes_to("run", "s", lines=b"add x\ncommit\n", printed=b"added 1\ncommitted\n")
        content = self.content()
        self.assertEqual((len(content), content[place:place + 1]), (LEAST, b"x"))
        content[place] = ord("y")
        self.put(content)
        self.comes_to("check", "s", told=b"pk_find: damaged\n")
        self.comes_to("run", "s", lines=b"find x\ncount\n",
                      printed=b"found 1: 1\ncount 1 next 2\n")


class Streams(ProgramTest):
    """Input that can't be read, and output that takes nothing."""

    CREATE = "create", "s", "--units", "64"

    def run_over(self, source, sink, *words):
        """What a command comes to whose input and output are these files."""
        with open(sink, "wb") as output:
            ran = subprocess.run([self.program, *words], cwd=self.folder, stdin=source,
                                 stdout=output, stderr=subprocess.PIPE, timeout=30, check=False)
        return ran.returncode, ran.stderr

    def full(self, *words, lines=b"count\n"):
        """What a command comes to whose output takes nothing."""
        with open(self.place_of("lines"), "wb") as file:
            file.write(lines)
        with open(self.place_of("lines"), "rb") as file:
            return self.run_over(file, "/dev/full", *words)

    def unread(self, *words):
        """What a command comes to whose input is a folder, so that each read fails."""
        folder = os.open(self.folder, os.O_RDONLY)
        self.addCleanup(os.close, folder)
        return self.run_over(folder, self.place_of("printed"), *words)

    def test_input_and_output_that_fail(self):
        # The file is made, with its store, and stays.
        self.assertEqual(self.full(*self.CREATE), (1, b"pk_find: output\n"))
        self.assertEqual(self.full(*self.CREATE), (1, b"pk_find: exists\n"))
        self.assertEqual(self.unread("run", "s"), (1, b"pk_find: input\n"))
        self.assertEqual(os.path.getsize(self.place_of("printed")), 0)
        for words in (("run", "s"), ("check", "s"), ("--help",)):
            self.assertEqual(self.full(*words), (1, b"pk_find: output\n"), words)
        counted = self.run_program("run", "s", lines=b"count\n")
        self.assertEqual(counted, (0, b"count 0 next 1\n", b""))


if __name__ == "__main__":
    program_case.main("commands_test")
