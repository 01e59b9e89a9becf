#!/usr/bin/env python3
"""Tests of the built program: what only a process shows.

    tools/program_test.py PATH-OF-pk_find

Each test runs in a folder of its own, which is empty at first. A class is a subject; what is tested
goes by unittest, which tells what failed on standard error. It ends with 1 where a test failed.
"""

import errno
import fcntl
import os
import re
import resource
import struct
import subprocess

import laid_out
import program_case
from program_case import NotedTest, ProgramTest


class WordsThatAreNotText(ProgramTest):
    """An argument may be any bytes. One that is no UTF-8 is refused, wherever it stands."""

    REFUSED = 2, b"", b"error: an argument is not text\n"

    def test_each_place(self):
        for words in [
            [b"\xff"],
            [b"create", b"\xff", b"--units", b"64"],
            [b"create", b"s", b"--units", b"64\xff"],
            [b"create", b"s", b"--units", b"64", b"\x80"],
            [b"run", b"\xc3"],
            [b"run", b"cut short \xe2\x82"],
            [b"--help", b"\xff"],
        ]:
            with self.subTest(words=words):
                self.assertEqual(self.run_program(*words, lines=b"count\n"), self.REFUSED)
        self.assertEqual(self.files(), [])

    def test_other_refused_lines_tell_more(self):
        status, printed, told = self.run_program(b"create", b"s")
        self.assertEqual((status, printed), (2, b""))
        self.assertGreater(told.count(b"\n"), 1)

    def test_text_beyond_ascii_is_a_path(self):
        path = "Straße €".encode()
        made = self.run_program(b"create", path, b"--units", b"64")
        self.assertEqual(made, (0, b"created 64 units\n", b""))
        self.assertEqual(self.files(), [path])
        counted = self.run_program(b"run", path, lines=b"count\n")
        self.assertEqual(counted, (0, b"count 0 next 1\n", b""))


class Statuses(ProgramTest):
    """The process ends with the status of its command."""

    def test_each_status(self):
        for status, words in [
            (0, ["--help"]),
            (1, ["run", "s"]),
            (1, ["check", "s"]),
            (2, ["frobnicate"]),
            (2, ["create", "s"]),
        ]:
            with self.subTest(words=words):
                self.assertEqual(self.run_program(*words)[0], status)
        self.assertEqual(self.files(), [])


class ManySegments(ProgramTest):
    """A store of documents `a`, a segment each, laid out byte by byte: of as many segments as there
    may be, and of one more."""

    MOST = 4096
    BODIES = 1024, 9216

    def lay_out(self, count):
        """Makes a store of so many segments."""
        laid_out.store_of(os.path.join(self.folder, "s"), count)

    def in_force(self):
        """How many segments the body of the greater generation has, and the bytes of its table."""
        with open(os.path.join(self.folder, "s"), "rb") as store:
            front = store.read(self.BODIES[1] + 48)
        bodies = [struct.unpack_from("<8xQIIQ4I", front, place) for place in self.BODIES]
        newest = max(bodies)
        return newest[4], newest[7]

    def test_the_most_that_there_may_be(self):
        self.lay_out(self.MOST)
        told = self.run_program("run", "s", lines=b"add a\ncommit\ntidy\ncommit\n")
        replies = b"added 4097\nrefused too many segments\ntidied\ncommitted\n"
        self.assertEqual(told, (0, replies, b""))
        self.assertEqual(self.in_force(), (4090, 163600))
        merged = self.run_program("run", "s", lines=b"merge\ncount\n")
        self.assertEqual(merged, (0, b"merged\ncount 4097 next 4098\n", b""))
        self.assertEqual(self.in_force(), (1, 40))
        checked = self.run_program("check", "s")
        self.assertEqual(checked, (0, b"ok 4097 documents next 4098 segments 1\n", b""))

    def pages_taken(self, commits):
        """How many pages of memory the system gave for a session of so many commits."""
        before = resource.getrusage(resource.RUSAGE_CHILDREN).ru_minflt
        told = self.run_program("run", "s", lines=b"add a\ncommit\n" * commits)
        self.assertEqual((told[0], told[1].count(b"committed\n")), (0, commits))
        return resource.getrusage(resource.RUSAGE_CHILDREN).ru_minflt - before

    def test_commits_take_what_earlier_ones_let_go(self):
        """Of 3,900 segments the entries have 39 pages, and the table that spells them as many."""
        self.lay_out(3_900)
        few = self.pages_taken(10)
        many = self.pages_taken(110)
        self.assertLess(many - few, 100 * 10)

    def test_one_more_is_damage(self):
        self.lay_out(self.MOST + 1)
        self.assertEqual(self.run_program("run", "s"), (1, b"", b"pk_find: damaged\n"))


class Growing(ProgramTest):
    """A store in a file grows. A file may be longer than its store, also by a part of a unit."""

    def setUp(self):
        super().setUp()
        self.run_program("create", "s", "--units", "64")
        self.run_program("run", "s", lines=b"add a b\ncommit\n")
        self.checked = 0, b"ok 1 documents next 2 segments 1\n", b""

    def grow(self, units):
        """What a growth to so many units comes to."""
        return self.run_program("grow", "s", "--units", str(units))

    def size(self):
        """The length of the file."""
        return os.path.getsize(os.path.join(self.folder, "s"))

    def test_what_did_not_fit_fits(self):
        lines = b"add " + b"-" * 20_000 + b"\ncommit\n"
        full = self.run_program("run", "s", lines=lines)
        self.assertEqual(full, (0, b"added 2\nrefused full need 40 largest 28\n", b""))
        self.assertEqual(self.grow(128), (0, b"grown to 128 units\n", b""))
        self.assertEqual(self.size(), 65_536)
        self.assertEqual(self.run_program("check", "s"), self.checked)
        fits = self.run_program("run", "s", lines=lines + b"find b\n")
        self.assertEqual(fits, (0, b"added 2\ncommitted\nfound 1: 1\n", b""))

    def test_as_many_units_and_fewer(self):
        with open(os.path.join(self.folder, "s"), "rb") as file:
            before = file.read()
        self.assertEqual(self.grow(64), (0, b"has 64 units\n", b""))
        self.assertEqual(self.grow(65)[0], 0)
        self.assertEqual(self.grow(64), (1, b"", b"pk_find: shorter\n"))
        self.assertEqual(self.size(), 65 * 512)
        with open(os.path.join(self.folder, "s"), "rb") as file:
            self.assertEqual(file.read()[17_408:32_768], before[17_408:])

    def test_what_the_command_line_refuses(self):
        for words in (["grow"], ["grow", "s"], ["grow", "s", "--units", "63"],
                      ["grow", "s", "--units", "2147483649"], ["grow", "--units", "64"]):
            with self.subTest(words=words):
                status, printed, _ = self.run_program(*words)
                self.assertEqual((status, printed), (2, b""))
        self.assertEqual(self.size(), 32_768)

    def test_a_file_that_is_longer(self):
        for more in (1, 511, 512, 100_000):
            with self.subTest(more=more):
                os.truncate(os.path.join(self.folder, "s"), 32_768 + more)
                self.assertEqual(self.run_program("check", "s"), self.checked)
                found = self.run_program("run", "s", lines=b"find a\n")
                self.assertEqual(found, (0, b"found 1: 1\n", b""))
                self.assertEqual(self.grow(64), (0, b"has 64 units\n", b""))
        self.assertEqual(self.grow(100), (0, b"grown to 100 units\n", b""))
        self.assertEqual(self.size(), 132_768)
        self.assertEqual(self.run_program("check", "s"), self.checked)
        self.assertEqual(self.grow(300), (0, b"grown to 300 units\n", b""))
        self.assertEqual(self.size(), 300 * 512)
        self.assertEqual(self.run_program("check", "s"), self.checked)

    def test_no_store_is_made_longer(self):
        with open(os.path.join(self.folder, "zeros"), "wb") as file:
            file.truncate(32_768)
        told = self.run_program("grow", "zeros", "--units", "128")
        self.assertEqual(told, (1, b"", b"pk_find: not a store\n"))
        self.assertEqual(os.path.getsize(os.path.join(self.folder, "zeros")), 32_768)
        told = self.run_program("grow", "none", "--units", "128")
        self.assertEqual(told, (1, b"", b"pk_find: missing\n"))
        self.assertEqual(self.files(), [b"s", b"zeros"])


class MemoryOfCommits(ProgramTest):
    """What a commit has written is no longer kept in memory: a session has little more of that for
    many commits than for a few. Each has words of its own, so that what is kept would grow."""

    FEW, MANY, WORDS = 4, 40, 4_000

    def most_memory(self, commits):
        """The most memory, in kB, that a session of so many commits has had."""
        store = f"store {commits}"
        self.assertEqual(self.run_program("create", store, "--units", "65536")[0], 0)
        with subprocess.Popen([self.program, "run", store], cwd=self.folder, stdin=subprocess.PIPE,
                              stdout=subprocess.PIPE) as session:
            for number in range(1, commits + 1):
                text = " ".join(f"w{number:02}n{place:04}" for place in range(self.WORDS))
                session.stdin.write(b"add %s\ncommit\n" % text.encode())
                session.stdin.flush()
                self.assertEqual(session.stdout.readline(), b"added %d\n" % number)
                self.assertEqual(session.stdout.readline(), b"committed\n")
            with open(f"/proc/{session.pid}/status", encoding="ascii") as status:
                return int(re.search(r"VmHWM:\s+(\d+) kB", status.read())[1])

    def test_the_buffer_is_emptied(self):
        few, many = self.most_memory(self.FEW), self.most_memory(self.MANY)
        self.assertLess(many, 1.25 * few)


class CallsOfTheSystem(NotedTest):
    """Which calls of the system reach a file, in which order, and what is told where one fails."""

    CREATE = "create", "s", "--units", "64"
    GROW = "grow", "s", "--units", "128"
    LINES = b"add a\ncommit\nfind a\n"
    REPLIES = 0, b"added 1\ncommitted\nfound 1: 1\n", b""
    DISK = 1, b"", b"pk_find: disk\n"
    LOCKED = f"lock 3 0 {fcntl.LOCK_EX | fcntl.LOCK_NB}"

    def remove(self):
        """Removes the store of a test, if there is one."""
        path = os.path.join(self.folder, "s")
        if os.path.exists(path):
            os.remove(path)

    def make(self):
        """Makes the store of a test anew."""
        self.remove()
        self.assertEqual(self.run_program(*self.CREATE), (0, b"created 64 units\n", b""))

    def test_a_store_is_made_and_synced(self):
        os.mkdir(os.path.join(self.folder, "a"))
        for path, folder in [("s", "."), ("a/s", "a")]:
            made, notes = self.noted("create", path, "--units", "64")
            self.assertEqual(made, (0, b"created 64 units\n", b""))
            self.assertEqual(notes[:6], [f"make {path}", self.LOCKED, "set_length 3 0 32768",
                                         "sync 3 0 0", f"open {folder}", "sync 4 0 0"])

    def test_a_store_is_opened_and_synced(self):
        self.make()
        _, notes = self.noted("run", "s")
        others = [note for note in notes if not note.startswith("read")]
        self.assertEqual(others[:5], ["open s", self.LOCKED, "sync 3 0 0", "length 3 0 0",
                                      "sync_data 3 0 0"])

    def test_a_growth_syncs_the_length_before_the_body_and_that_before_its_gate(self):
        self.make()
        grown, notes = self.noted(*self.GROW)
        self.assertEqual(grown, (0, b"grown to 128 units\n", b""))
        others = [note for note in notes if not note.startswith(("read", "print"))]
        self.assertEqual(others, ["open s", self.LOCKED, "sync 3 0 0", "length 3 0 0",
                                  "set_length 3 0 65536", "sync 3 0 0", "write 3 9216 8192",
                                  "sync_data 3 0 0", "write 3 512 1", "sync_data 3 0 0"])

    def test_a_growth_shuts_an_open_gate_under_the_sync_of_the_length(self):
        self.make()
        self.run_program("run", "s", lines=b"add a\ncommit\n")
        grown, notes = self.noted(*self.GROW)
        self.assertEqual(grown, (0, b"grown to 128 units\n", b""))
        others = [note for note in notes if not note.startswith(("read", "print"))]
        self.assertEqual(others, ["open s", self.LOCKED, "sync 3 0 0", "length 3 0 0",
                                  "set_length 3 0 65536", "write 3 0 1", "sync 3 0 0",
                                  "write 3 1024 8192", "sync_data 3 0 0", "write 3 0 1",
                                  "sync_data 3 0 0"])

    def test_each_call_of_a_growth_fails(self):
        self.make()
        self.run_program("run", "s", lines=b"add a\ncommit\n")
        with open(os.path.join(self.folder, "s"), "rb") as file:
            before = file.read()
        _, notes = self.noted(*self.GROW)
        for number, call in enumerate(self.counted(notes), 1):
            with open(os.path.join(self.folder, "s"), "wb") as file:
                file.write(before)
            failed, _ = self.noted(*self.GROW, FAIL_CALL=number)
            self.assertEqual(failed, self.DISK, call)
            checked = self.run_program("check", "s")
            self.assertEqual(checked, (0, b"ok 1 documents next 2 segments 1\n", b""), call)
            again, printed, _ = self.run_program(*self.GROW)
            self.assertEqual(again, 0, call)
            self.assertIn(printed, [b"grown to 128 units\n", b"has 128 units\n"], call)
            found = self.run_program("run", "s", lines=b"find a\n")
            self.assertEqual(found, (0, b"found 1: 1\n", b""), call)

    def test_what_is_committed_is_synced_before_it_is_told(self):
        self.make()
        came_to, notes = self.noted("run", "s", lines=self.LINES)
        self.assertEqual(came_to, self.REPLIES)
        before = notes[:notes.index(f"print 1 0 {len(b'committed ')}")]
        changing = [note.split()[0] for note in before if note.startswith(("write", "sync"))]
        self.assertIn("write", changing)
        self.assertEqual(changing[-1], "sync_data")

    def test_each_call_of_a_creation_fails(self):
        _, notes = self.noted(*self.CREATE)
        for number, _ in enumerate(self.counted(notes), 1):
            self.remove()
            failed, _ = self.noted(*self.CREATE, FAIL_CALL=number)
            self.assertEqual(failed, self.DISK, f"call {number}")

    def test_each_call_of_a_session_fails(self):
        self.make()
        _, notes = self.noted("run", "s", lines=b"add a\ncommit\n")
        for number, call in enumerate(self.counted(notes), 1):
            self.make()
            failed, _ = self.noted("run", "s", lines=b"add a\ncommit\n", FAIL_CALL=number)
            self.assertIn(failed, [self.DISK, (0, b"added 1\nrefused disk\n", b"")], call)
            _, left, _ = self.run_program("run", "s", lines=b"count\n")
            self.assertIn(left, [b"count 0 next 1\n", b"count 1 next 2\n"], call)

    def test_short_transfers_are_finished(self):
        made, notes = self.noted(*self.CREATE, MOST=1000)
        self.assertEqual(made, (0, b"created 64 units\n", b""))
        self.assertEqual(len([note for note in notes if note.startswith("write")]), 9 + 1)
        self.assertEqual(self.noted("run", "s", lines=self.LINES, MOST=1000)[0], self.REPLIES)
        self.assertEqual(self.run_program("run", "s", lines=b"show 1\n"), (0, b"text a\n", b""))

    def test_interrupted_transfers_are_made_again(self):
        self.make()
        _, notes = self.noted("run", "s", lines=self.LINES)
        for number, call in enumerate(self.counted(notes), 1):
            if call.startswith(("read", "write")):
                self.make()
                came_to, _ = self.noted("run", "s", lines=self.LINES, FAIL_CALL=number,
                                        FAIL_WITH=errno.EINTR)
                self.assertEqual(came_to, self.REPLIES, call)


if __name__ == "__main__":
    program_case.main("program_test")
