"""Searches beside whoever writes: they take no lock, want no right to write, and wait for nobody;
and an older program, which has no session that only reads."""

import os
import subprocess
import sys
import time
import unittest

from rubewola import (Failed, InUse, NoSuchDocument, QueryRefused, Reader, Refused, Store, queries,
                      results, searching, store)

from support import LONG, RUBEWOLA, Stores, mail, mbox, older, reads

NOBODY = 65_534
MAILS = 1_500


class WithMails(Stores):
    """A store with three mails."""

    def setUp(self):
        super().setUp()
        self.box = self.write("box", mbox(*(
            mail(f"wort zahl{day}", From="Ada <ada@x>", Message_ID=f"<{day}@x>",
                 Date=f"Fri, {day} May 2010 23:30:00 +0000") for day in (1, 2, 3))))
        self.loaded(3, "load-mbox", self.box)


@unittest.skipUnless(reads(), "wants a program with `read`")
class Beside(WithMails):
    """Sessions that only read, beside one that has the lock."""

    def test_all_that_reads_waits_for_nothing(self):
        with Store(self.store) as writer:
            writer.add("wort neu")
            begin = time.monotonic()
            for told, *words in (("^3$", "search", "--count", "wort"), ("zahl2", "show", "2"),
                                 (r"documents  3 \(3 mbox\)", "info"),
                                 ("(?m)^1: 2010-05-01 .*<1@x>$", "search", "wort OR date:2010")):
                ran = self.run_line(told, *words)
                self.assertEqual(ran.stderr, "")
            self.assertLess(time.monotonic() - begin, LONG)
            writer.commit()
            self.run_line("^4$", "search", "--count", "wort")
            writer.merge()
            self.run_line("^4$", "search", "--count", "wort")

    def test_searches_beside_a_load_that_has_the_lock(self):
        box = self.write("more", mbox(*(mail(f"gleich zahl{at}", Message_ID=f"<m{at}@x>")
                                        for at in range(MAILS))))
        loader, seen = self.start("load-mbox", "--jobs", "2", box), []
        while loader.poll() is None or not seen:
            ran = self.ran("search", "--count", "gleich")
            self.assertEqual((ran.stderr, ran.returncode), ("", 0 if int(ran.stdout) else 1))
            seen.append(int(ran.stdout))
        self.assertEqual(loader.returncode, 0, loader.communicate())
        loader.communicate()
        self.assertEqual(seen, sorted(seen))
        self.run_line(f"^{MAILS}$", "search", "--count", "gleich")

    def test_one_session_follows_commits(self):
        with Reader(self.store) as reader, Store(self.store) as writer:
            for at in range(4, 40):
                self.assertEqual(writer.add("wort"), at)
                self.assertEqual(reader.count(), (at - 1, at))
                writer.commit()
                self.assertEqual(reader.find("wort"), [*range(1, at + 1)])
                if at % 8 == 0:
                    writer.tidy()
            self.assertEqual(next(reader.show_all([39])), "wort")

    def test_what_is_deleted_between_two_questions(self):
        with Reader(self.store) as reader, Store(self.store) as writer:
            found = searching.answer(reader, "wort")
            writer.delete(2)
            writer.add("wort neu")
            writer.commit()
            read = results.Results().read(reader, searching.newest(found, 9))
            self.assertEqual([doc["number"] for doc in read.newest(9)], [1, 3])
            self.assertEqual(found.inside("2010"), [1, 3])
            self.assertEqual([bool(one) for one in reader.replies([1, 2, 3, 99, 2**40])],
                             [True, False, True, False, False])
            self.assertRaises(NoSuchDocument, reader.show, 2)

    def test_what_is_refused(self):
        with Reader(self.store) as reader:
            for line in ("add x", "delete 1", "commit", "merge", "tidy"):
                with self.assertRaisesRegex(Refused, "read only .this session"):
                    reader.ask(line)
            self.assertRaises(QueryRefused, reader.find, "(")
            self.assertEqual(reader.find("wort"), [1, 2, 3])
            self.assertFalse(hasattr(reader, "add"))

    def test_what_cannot_be_opened(self):
        begin = time.monotonic()
        bad = self.write("bad", b"x" * 100_000)
        for path, told in ((self.folder / "none", "missing"), (bad, "not a store"),
                           (self.write("short", b"x"), "bad length")):
            with self.assertRaisesRegex(Failed, f"{path}: {told}"):
                Reader(path)
        self.assertLess(time.monotonic() - begin, LONG)
        self.assertRaisesRegex(OSError, "s a directory", Reader, self.folder)
        os.mkfifo(self.folder / "pipe")
        self.assertRaisesRegex(Failed, "pipe: bad length", Reader, self.folder / "pipe")

    def test_a_store_that_is_being_made(self):
        """Who has the lock may be about to make it a store: that is waited for."""
        made = self.write("made", b"\0" * 100_000)
        with open(made, "r+b") as file:
            store.fcntl.flock(file, store.fcntl.LOCK_EX)
            self.assertRaises(InUse, Reader, made, 0.1)
            file.write(self.store.read_bytes())
            file.flush()
            with Reader(made) as reader:
                self.assertEqual(reader.count().live, 3)

    def test_a_store_that_grows(self):
        with Reader(self.store) as reader:
            had = self.store.stat().st_size // 512
            self.assertTrue(Store.grow(self.store, had * 2))
            self.assertEqual(reader.find("wort"), [1, 2, 3])
            with Store(self.store) as writer:
                writer.add("wort")
                writer.commit()
            self.assertEqual(reader.find("wort"), [1, 2, 3, 4])

    def test_a_session_that_is_killed(self):
        with Reader(self.store) as reader:
            self.assertTrue(reader.is_current)
            reader._program.kill()
            self.wait_for(lambda: not reader.is_current)
            self.assertRaisesRegex(Failed, "closed|the program was ended", reader.find, "wort")


class Rights(WithMails):
    """A store that nobody may write."""

    def setUp(self):
        super().setUp()
        self.store.chmod(0o444)
        self.folder.chmod(0o755)

    @unittest.skipUnless(reads(), "wants a program with `read`")
    def test_a_store_of_mode_0444(self):
        before = self.store.read_bytes()
        self.run_line("^3$", "search", "--count", "wort")
        self.run_line("zahl1", "show", "1")
        self.assertEqual(self.store.read_bytes(), before)
        self.assertEqual(self.store.stat().st_mode & 0o777, 0o444)

    def as_nobody(self, *words):
        """What a command line says where another user types it, by a Python that he may run."""
        for python in (sys.executable, "/usr/bin/python3"):
            line = [python, "-m", "rubewola", *map(str, words)]
            try:
                return subprocess.run(line, capture_output=True, check=False, encoding="utf-8",
                                      user=NOBODY, group=NOBODY, extra_groups=[], cwd="/",
                                      env={**os.environ, "HOME": "/"})
            except PermissionError:
                continue
        return self.skipTest("wants a Python and a program that all may run")

    @unittest.skipUnless(os.geteuid() == 0, "wants root, to become another user")
    def test_another_user_with_an_older_program(self):
        with older(self.folder):
            ran = self.as_nobody("search", self.store, "wort")
        self.assertEqual((ran.stdout, ran.returncode), ("", 2))
        self.assertRegex(ran.stderr, rf"rubewola: .*Permission denied: '{self.store}'\n\Z")

    @unittest.skipUnless(os.geteuid() == 0, "wants root, to become another user")
    @unittest.skipUnless(reads(), "wants a program with `read`")
    def test_another_user(self):
        ran = self.as_nobody("search", "--count", self.store, "wort")
        self.assertEqual((ran.stdout, ran.stderr, ran.returncode), ("3\n", "", 0))
        ran = self.as_nobody("delete", self.store, "1")
        self.assertEqual((ran.stdout, ran.returncode), ("", 2))
        self.assertIn("Permission denied", ran.stderr)
        self.store.chmod(0o600)
        ran = self.as_nobody("search", self.store, "wort")
        self.assertEqual((ran.stdout, ran.returncode), ("", 2))
        self.assertRegex(ran.stderr, rf"rubewola: .*Permission denied: '{self.store}'\n\Z")


class Older(WithMails):
    """A program without sessions that only read: searches have the store for themselves."""

    def setUp(self):
        super().setUp()
        program = older(self.folder)
        program.start()
        self.addCleanup(program.stop)

    def test_searches(self):
        self.run_line("^3$", "search", "--count", "wort")
        self.run_line("zahl1", "show", "1")
        with Reader(self.store) as reader:
            self.assertFalse(reader.is_shared)
            self.assertEqual(reader.find("wort"), [1, 2, 3])
            self.assertRaises(InUse, Reader, self.store, 0.1)

    def test_a_search_waits_and_says_so(self):
        with Store(self.store) as writer:
            writer.add("neu")
            writer.commit()
            search = subprocess.Popen([*RUBEWOLA, "search", self.store, "neu"], encoding="utf-8",
                                      stdout=subprocess.PIPE, stderr=subprocess.PIPE)
            self.assertEqual(search.stderr.readline(), "rubewola: the store is in use; waiting\n")
        told, errors = search.communicate(timeout=LONG)
        self.assertEqual((told, errors, search.returncode), ("4: neu\n", "", 0))


class Fields(WithMails):
    """What a query is read by comes from the same session."""

    def test_a_field_of_the_store(self):
        rows = self.write("rows", '{"level": "error"}\n')
        self.run_line("loaded 1 ", "load-json", rows)
        with Reader(self.store) as reader:
            self.assertEqual(searching.find(reader, "level:error"), [4])
            self.assertRaises(QueryRefused, searching.find, reader, "tag:x")
            self.assertIsInstance(searching.read(reader, "wort"), queries.Query)


if __name__ == "__main__":
    unittest.main()
