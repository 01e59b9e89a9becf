#!/usr/bin/env python3
"""Tests of `read`: a session that only reads the store in a file, beside whoever writes it.

    tools/readers_test.py PATH-OF-pk_find

Each test runs in a folder of its own, which is empty at first. The Nth commit of a writer adds the
document `x wN`, so an answer to `find x` tells of which commit it is. It ends with 1 where a test
failed.
"""

import errno
import os
import shutil
import subprocess

import program_case
from program_case import NotedTest, ProgramTest

DISK = 1, b"", b"pk_find: disk\n"
IN_USE = 1, b"", b"pk_find: in use\n"


class Session:
    """A process that answers lines."""

    def __init__(self, test, *words, **settings):
        self.process = subprocess.Popen([test.program, *words], cwd=test.folder,
                                        stdin=subprocess.PIPE, stdout=subprocess.PIPE,
                                        stderr=subprocess.PIPE, **settings)
        test.addCleanup(self.kill)

    def ask(self, line):
        """The reply to a line."""
        self.send(line)
        return self.reply()

    def send(self, line):
        """Sends a line."""
        self.process.stdin.write(f"{line}\n".encode())
        self.process.stdin.flush()

    def reply(self):
        """The next reply."""
        return self.process.stdout.readline().decode().rstrip("\n")

    def end(self):
        """Ends the input; the status, and what was told as faults."""
        _, told = self.process.communicate(timeout=30)
        return self.process.returncode, told

    def kill(self):
        """Kills it, where it still runs."""
        self.process.kill()
        self.process.wait()
        for stream in (self.process.stdin, self.process.stdout, self.process.stderr):
            stream.close()


def found(numbers):
    """The reply of a find that finds these numbers."""
    return "".join([f"found {len(numbers)}:"] + [f" {n}" for n in numbers])


class Writer(Session):
    """A session that commits, each commit a document."""

    def __init__(self, test, store="s", commits=0):
        super().__init__(test, "run", store)
        self.commits = commits

    def commit(self):
        """Commits one document more; the reply that `find x` then has, while none is deleted."""
        self.commits += 1
        self.ask(f"add x w{self.commits}")
        if self.ask("commit") != "committed":
            raise AssertionError("no commit")
        return found(range(1, self.commits + 1))


class WithAStore(ProgramTest):
    """A test with a store of 4,096 units."""

    def setUp(self):
        super().setUp()
        made = self.run_program("create", "s", "--units", "4096")
        self.assertEqual(made, (0, b"created 4096 units\n", b""))

    def read(self, lines, store="s"):
        """What a reader comes to on these lines."""
        return self.run_program("read", store, lines=lines)


class WhatAReaderTells(WithAStore):
    """Its replies, its status and its reasons."""

    def test_what_the_command_line_refuses(self):
        for words in (["read"], ["read", "s", "t"], ["read", "s", "--units", "64"]):
            with self.subTest(words=words):
                status, printed, _ = self.run_program(*words, lines=b"count\n")
                self.assertEqual((status, printed), (2, b""))

    def test_help_names_what_it_answers(self):
        status, printed, _ = self.run_program("read", "--help")
        self.assertEqual(status, 0)
        for word in (b"find QUERY", b"show N", b"count", b"quit", b"read only"):
            self.assertIn(word, printed)

    def test_each_question(self):
        self.run_program("run", "s", lines=b"add red apple\nadd green\\pear\nadd red pear\n"
                                           b"delete 1\ncommit\n")
        lines = [b"find red", b"find pear NOT green", b'find "red pear" OR app*', b"show 2",
                 b"show 1", b"show 4", b"count", b"nothing", b"count ", b"\xff", b"find (red",
                 b"find a b OR", b"add " + b"-" * 1_048_640, b"quit", b"count"]
        replies = [b"found 1: 3", b"found 1: 3", b"found 1: 3", b"text green\\\\pear",
                   b"refused no such document", b"refused no such document", b"count 2 next 4",
                   b"refused unknown", b"refused unknown", b"refused not text",
                   b"refused query unclosed at 0", b"refused query unexpected at 6",
                   b"refused line too long", b"bye"]
        told = self.read(b"".join(line + b"\n" for line in lines))
        self.assertEqual(told, (0, b"".join(reply + b"\n" for reply in replies), b""))

    def test_what_changes_the_store_is_refused(self):
        self.run_program("run", "s", lines=b"add a\ncommit\nadd b\ncommit\n")
        with open(self.place_of("s"), "rb") as file:
            before = file.read()
        os.utime(self.place_of("s"), (1, 1))
        for line in (b"add b", b"delete 1", b"commit", b"merge", b"tidy"):
            with self.subTest(line=line):
                told = self.read(line + b"\ncount\nshow 1\n")
                replies = b"refused read only\ncount 2 next 3\ntext a\n"
                self.assertEqual(told, (0, replies, b""))
        self.assertEqual(os.stat(self.place_of("s")).st_mtime, 1)
        with open(self.place_of("s"), "rb") as file:
            self.assertEqual(file.read(), before)

    def test_files_without_a_store(self):
        self.assertEqual(self.read(b"count\n", "none"), (1, b"", b"pk_find: missing\n"))
        # A gate that is open before a body of zeros is damage.
        for name, length, gate, told in [
            ("empty", 0, b"", b"bad length"),
            ("short", 64 * 512 - 1, b"", b"bad length"),
            ("zeros", 64 * 512, b"", b"not a store"),
            ("long", 64 * 512 + 1, b"", b"not a store"),
            ("unsound", 64 * 512, b"\xa7", b"damaged"),
        ]:
            with self.subTest(name=name):
                with open(self.place_of(name), "wb") as file:
                    file.write(gate)
                    file.truncate(length)
                reason = b"pk_find: " + told + b"\n"
                self.assertEqual(self.read(b"count\n", name), (1, b"", reason))

    def test_what_is_no_file(self):
        os.mkdir(self.place_of("folder"))
        os.mkfifo(self.place_of("pipe"))
        for name in ("folder", "pipe"):
            with self.subTest(name=name):
                self.assertEqual(self.read(b"count\n", name), DISK)

    def test_a_damaged_segment(self):
        self.run_program("run", "s", lines=b"add a\ncommit\n")
        with open(self.place_of("s"), "r+b") as file:
            file.seek(34 * 512)
            file.write(b"\xff")
        self.assertEqual(self.read(b"count\n"), (1, b"", b"pk_find: damaged\n"))

    def test_an_output_that_takes_nothing(self):
        with open("/dev/full", "wb") as full:
            ran = subprocess.run([self.program, "read", "s"], cwd=self.folder, input=b"count\n",
                                 stdout=full, stderr=subprocess.PIPE, timeout=30, check=False)
        self.assertEqual((ran.returncode, ran.stderr), (1, b"pk_find: output\n"))

    def test_an_input_that_cannot_be_read(self):
        folder = os.open(self.folder, os.O_RDONLY)
        self.addCleanup(os.close, folder)
        ran = subprocess.run([self.program, "read", "s"], cwd=self.folder, stdin=folder,
                             capture_output=True, timeout=30, check=False)
        self.assertEqual((ran.returncode, ran.stdout, ran.stderr), (1, b"", b"pk_find: input\n"))

    def test_a_file_of_another_user(self):
        if os.geteuid() != 0:
            self.skipTest("the file of another user: asks for root")
        writer = Writer(self)
        program = shutil.copy(self.program, self.place_of("program"))
        os.chmod(self.folder, 0o755)
        nobody = {"user": 65534, "group": 65534, "extra_groups": [], "cwd": self.folder,
                  "capture_output": True, "timeout": 30, "check": False}

        def tried(command, mode):
            os.chmod(self.place_of("s"), mode)
            ran = subprocess.run([program, command, "s"], input=b"find x\n", **nobody)
            return ran.returncode, ran.stdout, ran.stderr
        wanted = 0, writer.commit().encode() + b"\n", b""
        self.assertEqual(tried("read", 0o444), wanted)
        self.assertEqual(tried("read", 0o644), wanted)
        self.assertEqual(tried("run", 0o444), DISK)
        self.assertEqual(tried("read", 0o600), DISK)
        self.assertEqual(tried("read", 0o222), DISK)


class BesideASession(WithAStore):
    """A session has the store, and its lock, all the time."""

    def reader(self, store="s"):
        """A session that only reads."""
        return Session(self, "read", store)

    def test_each_commit_is_seen(self):
        writer, reader = Writer(self), self.reader()
        self.assertEqual(reader.ask("find x"), found([]))
        for _ in range(20):
            self.assertEqual(writer.commit(), reader.ask("find x"))
        self.assertEqual(reader.ask("show 20"), "text x w20")
        self.assertEqual(reader.ask("count"), "count 20 next 21")
        self.assertEqual(self.run_program("run", "s"), IN_USE)
        self.assertEqual(reader.end(), (0, b""))

    def test_what_is_not_committed_is_not_seen(self):
        writer, reader = Writer(self), self.reader()
        writer.commit()
        writer.ask("add x w2")
        writer.ask("delete 1")
        self.assertEqual(reader.ask("find x"), found([1]))
        self.assertEqual(reader.ask("show 2"), "refused no such document")
        self.assertEqual(reader.ask("count"), "count 1 next 2")
        self.assertEqual(writer.ask("merge"), "merged")
        self.assertEqual(reader.ask("find x"), found([1]))
        self.assertEqual(writer.ask("commit"), "committed")
        self.assertEqual(reader.ask("find x"), found([2]))
        self.assertEqual(reader.ask("count"), "count 1 next 3")

    def test_much_between_two_lines(self):
        writer, readers = Writer(self), [self.reader() for _ in range(3)]
        live = []
        for turn in range(1, 9):
            for _ in range(turn * 3):
                writer.commit()
                live.append(writer.commits)
            for number in live[turn::7]:
                writer.ask(f"delete {number}")
                live.remove(number)
            self.assertEqual(writer.ask("commit"), "committed")
            self.assertEqual(writer.ask("tidy"), "tidied")
            if turn % 3 == 0:
                self.assertEqual(writer.ask("merge"), "merged")
            for reader in readers[turn % 2:]:
                self.assertEqual(reader.ask("find x"), found(live))
                self.assertEqual(reader.ask(f"show {live[-1]}"), f"text x w{live[-1]}")

    def test_sessions_come_and_go(self):
        reader, commits = self.reader(), 0
        for turn in range(5):
            writer = Writer(self, commits=commits)
            wanted = writer.commit()
            commits = writer.commits
            if turn % 2:
                self.assertEqual(writer.end(), (0, b""))
            else:
                writer.kill()
            self.assertEqual(reader.ask("find x"), wanted)
        told = self.run_program("check", "s")
        self.assertEqual(told, (0, b"ok 5 documents next 6 segments 5\n", b""))
        self.assertEqual(reader.ask("find x"), wanted)

    def test_a_store_that_grows(self):
        reader = self.reader()
        self.run_program("run", "s", lines=b"add x w1\ncommit\n")
        self.assertEqual(reader.ask("find x"), found([1]))
        self.assertEqual(self.run_program("grow", "s", "--units", "65536")[0], 0)
        text = b"x " + b"-" * 1_000_000
        lines = b"".join(b"add " + text + b"\n" for _ in range(3)) + b"commit\n"
        self.assertIn(b"committed", self.run_program("run", "s", lines=lines)[1])
        self.assertEqual(reader.ask("find x"), found(range(1, 5)))
        self.assertEqual(reader.ask("show 4"), "text " + text.decode())

    def test_a_path_that_is_renamed_over(self):
        self.run_program("run", "s", lines=b"add x w1\ncommit\n")
        old = self.reader()
        self.assertEqual(old.ask("find x"), found([1]))
        shutil.copy(self.place_of("s"), self.place_of("t"))
        self.run_program("run", "t", lines=b"add x w2\ncommit\n")
        os.rename(self.place_of("t"), self.place_of("s"))
        self.assertEqual(old.ask("find x"), found([1]))
        self.assertEqual(self.reader().ask("find x"), found([1, 2]))
        os.remove(self.place_of("s"))
        self.assertEqual(old.ask("show 1"), "text x w1")

    def test_a_writer_that_is_killed_in_a_commit(self):
        reader, commits = self.reader(), 0
        for _ in range(30):
            writer = Writer(self, commits=commits)
            sure = writer.commit()
            self.assertEqual(reader.ask("find x"), sure)
            writer.send(f"add x w{writer.commits + 1}\ncommit")
            during = reader.ask("find x")
            writer.kill()
            behind = reader.ask("find x")
            more = found(range(1, writer.commits + 2))
            self.assertIn((during, behind), [(sure, sure), (sure, more), (more, more)])
            commits = writer.commits + (behind == more)
        checked = self.run_program("check", "s")[1]
        self.assertTrue(checked.startswith(b"ok %d documents" % commits), checked)


class Stepped(Session):
    """A reader whose every call of the system waits until something was done before it."""

    def __init__(self, test, store="s"):
        told, tell = os.pipe()
        let, self.leave = os.pipe()
        super().__init__(test, "read", store, pass_fds=(tell, let),
                         env=test.noting(TELL=tell, LET=let))
        os.close(tell)
        os.close(let)
        self.told = os.fdopen(told)
        test.addCleanup(self.told.close)
        test.addCleanup(os.close, self.leave)

    def calls(self):
        """The names of the calls that wait, one after the other. The one that was given last goes
        on when the next is asked for. They end with the process."""
        for call in self.told:
            yield call.rstrip("\n")
            os.write(self.leave, b"-")


class ThatCannotGetAhead(WithAStore, NotedTest):
    """Before each call of a reader there are two commits, so that each snapshot is outdated when it
    is looked at."""

    def stepped(self, line, before):
        """What a reader answers to a line, after this was done before each of its calls, and these
        calls."""
        reader = Stepped(self)
        reader.send(line)
        reader.process.stdin.close()
        calls = []
        for call in reader.calls():
            before(call)
            calls.append(call)
        reply = reader.reply()
        reader.process.wait()
        self.assertEqual(reader.process.stderr.read(), b"")
        self.assertEqual(reader.process.returncode, 0)
        return reply, calls

    def test_a_writer_that_goes_on(self):
        writer, reads = Writer(self), []

        # An opening looks at each half by two reads, and then once more at the greater one.
        def before(call):
            if call != "read":
                reads.clear()
                return
            reads.append(call)
            if len(reads) == 5:
                writer.commit()
                writer.commit()
        reply, calls = self.stepped("find x", before)
        self.assertEqual(reply, "refused disk")
        self.assertEqual(calls.count("lock"), 100)
        self.assertEqual(self.waits(), ["wait 0 0 10"] * 100)
        self.assertEqual(writer.ask("count"), f"count {writer.commits} next {writer.commits + 1}")

    def test_the_reader_goes_on_once_the_writer_rests(self):
        for commits in (1, 5, 20):
            with self.subTest(commits=commits):
                writer = Writer(self, commits=self.committed())
                least = writer.commits

                def before(call):
                    if call == "read" and writer.commits < least + commits:
                        writer.commit()
                reply, calls = self.stepped("find x", before)
                self.assertEqual(reply, found(range(1, writer.commits + 1)))
                self.assertNotIn("lock", calls)
                self.assertEqual(writer.end()[0], 0)

    def test_the_reader_goes_on_while_it_waits_for_the_lock(self):
        writer, locks = Writer(self), []

        def before(call):
            if call == "lock":
                locks.append(call)
            elif call == "read" and not locks:
                writer.commit()
                writer.commit()
        reply, _ = self.stepped("find x", before)
        self.assertEqual(reply, found(range(1, writer.commits + 1)))
        self.assertEqual(len(locks), 1)
        self.assertEqual(writer.end()[0], 0)

    def waits(self):
        """How the reader waited, in milliseconds."""
        with open(self.notes, encoding="utf-8") as notes:
            return [note for note in notes.read().splitlines() if note.startswith("wait")]

    def committed(self):
        """How many documents the store has."""
        return int(self.run_program("run", "s", lines=b"count\n")[1].split()[1])

    def test_the_reader_keeps_writers_away_for_one_question(self):
        writer, told = Writer(self), []

        def before(call):
            if call == "lock" and not told:
                writer.end()
                told.append(call)
            elif call == "read" and told:
                told.append(self.run_program("run", "s", lines=b"add y\ncommit\n"))
            elif call == "read":
                writer.commit()
                writer.commit()
        reply, calls = self.stepped("find x", before)
        self.assertEqual(reply, found(range(1, writer.commits + 1)))
        self.assertEqual(calls.count("lock"), 2)
        self.assertGreater(len(told), 5)
        self.assertEqual(set(told[1:]), {IN_USE})
        ran = self.run_program("run", "s", lines=b"add y\ncommit\n")
        self.assertEqual(ran, (0, f"added {writer.commits + 1}\ncommitted\n".encode(), b""))


class CallsOfAReader(WithAStore, NotedTest):
    """Which calls of the system a reader makes, and what it answers where one fails."""

    LINES = b"find x\nshow 2\nfind x\nshow 2\n"
    REPLIES = [b"found 2: 1 2", b"text x w2"] * 2

    def setUp(self):
        super().setUp()
        self.run_program("run", "s", lines=b"add x w1\nadd x w2\ncommit\n")

    def test_it_only_looks(self):
        _, notes = self.noted("read", "s", lines=self.LINES)
        self.assertEqual({note.split()[0] for note in notes}, {"open", "length", "read", "print"})

    def test_a_line_over_kept_pages_looks_at_two_generations(self):
        once, twice = (self.noted("read", "s", lines=lines * b"find x\n")[1] for lines in (1, 2))
        more = [note.split() for note in twice[len(once):-1]]
        self.assertEqual([(call, at, n) for call, _, at, n in more],
                         [("read", "1032", "8"), ("read", "9224", "8")])

    def test_each_call_fails(self):
        _, notes = self.noted("read", "s", lines=self.LINES)
        for number, call in enumerate(self.counted(notes), 1):
            (status, printed, told), _ = self.noted("read", "s", lines=self.LINES,
                                                    FAIL_CALL=number)
            if status == 0:
                replies = printed.splitlines()
                wrong = [n for n, reply in enumerate(replies) if reply != self.REPLIES[n]]
                self.assertEqual(len(replies), 4, call)
                self.assertLessEqual(len(wrong), 1, call)
                self.assertLessEqual({replies[n] for n in wrong}, {b"refused disk"}, call)
            else:
                self.assertEqual((status, printed, told), DISK, call)

    def test_short_and_interrupted_reads(self):
        wanted = 0, b"\n".join(self.REPLIES) + b"\n", b""
        came_to, notes = self.noted("read", "s", lines=self.LINES, MOST=1000)
        self.assertEqual(came_to, wanted)
        self.assertEqual(self.noted("read", "s", lines=self.LINES, MOST=100)[0], wanted)
        # Eight bytes of a generation are of one moment: seven of them are none.
        self.assertEqual(self.noted("read", "s", lines=self.LINES, MOST=7)[0], DISK)
        for number, call in enumerate(self.counted(notes), 1):
            if call.startswith("read"):
                came_to, _ = self.noted("read", "s", lines=self.LINES, FAIL_CALL=number,
                                        FAIL_WITH=errno.EINTR)
                self.assertEqual(came_to, wanted, call)


if __name__ == "__main__":
    program_case.main("readers_test")
