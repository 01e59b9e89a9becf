"""What each command prints over several shards: the same as one store's, where one store has it."""

import contextlib
import io
import os
import subprocess
import sys
import time
import unittest
from unittest import mock

from rubewola import Store, __main__ as plain

from fleets import LONG, Shards, need_distributed
from support import mail, mbox

QUERIES = ["from:ada", "subject:plan NOT from:ada", "date:2010-05..", "wort3 OR wort77", "fuell1",
           "NOT wort1", "nothing", "id:<7@x>"]


def setUpModule():
    need_distributed()


class OneStore(Shards):
    """An archive over three shards beside one store with the same input."""

    LINES = 1

    def beside(self, *words):
        """What the plain client prints of the one store, and its status."""
        said = io.TextIOWrapper(io.BytesIO(), "utf-8")
        with mock.patch.object(sys, "argv", ["rubewola", *map(str, words)]), \
                contextlib.redirect_stdout(said), contextlib.redirect_stderr(io.StringIO()):
            status = plain.main()
        said.seek(0)
        return said.read(), status

    def assert_same(self, queries):
        for at, query in enumerate(queries):
            forms = [["--limit", 7], ["--format", ("json", "paths")[at % 2]]]
            for words in forms if at else [*forms, ["--count"], ["--format", "paths"]]:
                with self.subTest(query, words=words):
                    told, status = self.beside("search", *words, self.store, query)
                    ran = self.ran("search", *words, query)
                    self.assertEqual((ran.stdout, ran.returncode), (told, status))

    def load_both(self, command, *files):
        self.make("abc", block=16)
        self.run_line("complete to", command, *files)
        self.assertEqual(self.beside(command, self.store, *files)[1], 0)

    def test_mails(self):
        names = ["ada", "bdale", "jörg"]
        box = self.write("box", mbox(*(
            mail(f"wort{n} fuell{n % 5} lists.debian.org", From=f"{names[n % 3]}@x.org",
                 Subject="plan" if n % 2 else "other", Message_ID=f"<{n}@x>",
                 Date=f"Fri, {n % 100 // 4 + 1} {'Apr' if n < 100 else 'May'} 2010 23:30:00 +0000")
            for n in range(1, 200))))  # The newest have the highest numbers.
        self.load_both("load-mbox", box)
        self.assert_same([*QUERIES, "debian"])

    def test_lines_of_two_files(self):
        first = self.write("log.1", "".join(f"Nov {n // 6 + 1} 11:15:56 host x[{n}]: w{n % 9}\n"
                                            for n in range(150)))
        os.utime(first, (1_400_000_000, 1_400_000_000))  # The year of its stamps is 2013.
        last = self.write("log", "".join(f"2026-03-{n // 4 + 1:02} host.example.org y w{n % 7}\n"
                                         for n in range(90)) + "no end yet")
        self.load_both("load-log", first, last)
        self.assert_same(["w3", "date:2013-11-05", "date:..2020 w8", "host NOT example", "yet"])
        self.run_line("its last line has no end yet", "load-log", first, last)

    def test_faults_of_queries(self):
        self.load_both("load-log", self.write("log", "one two\nthree\n"))
        for query, told in [("one AND", r"unexpected at 7\none AND\n       \^"),
                            ("nofield:x", '"nofield" is no field here'),
                            ("date:soon", "no day")]:
            self.run_line(told, "search", query, status=2)
        self.run_line("the operator is AND", "search", "one and two", status=1)

    def test_a_store_of_another_loader(self):
        self.write_groups((1, "ab"), (33, "c"), block=16)
        self.run_line("c: created", "create", "--units", self.UNITS)
        self.run_line("complete to 32$", "load-log",
                      self.write("log", "".join(f"line {n}\n" for n in range(1, 33))))
        rows = "".join(f'{{"level": "error", "line": "x{n}"}}\n' for n in range(1, 4))
        self.beside("load-json", self.folder / "c", self.write("rows", rows))
        self.run_line("(?m)^count 35 complete to 35$", "counts")
        # A field that one shard alone has is one of the archive.
        found = self.run_line("^33: ", "search", "level:error").stdout
        self.assertEqual([line.partition(":")[0] for line in found.splitlines()], ["33", "34", "35"])


class Commands(Shards):
    """The commands that change shards or look after them."""

    LINES = 600

    def setUp(self):
        super().setUp()
        self.make("abc")
        self.load()

    def test_a_load_goes_on(self):
        self.run_line("^loaded 0 documents .* complete to 600$", "load-log", self.log)
        with open(self.log, "a", encoding="utf-8") as log:
            log.writelines(map(self.line, range(601, 1_001)))
        self.run_line("^loaded 400 documents .* complete to 1000$", "load-log", self.log)
        self.assert_whole(1_000)

    def test_what_is_deleted(self):
        last = [max(self.places(name)) for name in "abc"]  # Each shard's last.
        numbers = [1, 65, 129, *last]
        told = self.run_line("^", "delete", *numbers, 1, 5_000).stdout.splitlines()
        self.assertEqual(sorted(told), sorted([f"deleted {n}" for n in numbers]
                                              + ["5000 was deleted, or was not there"]))
        self.run_line("^65 was deleted, or was not there$", "delete", 65)
        self.run_line("(?m)^count 594 complete to 600$", "counts")
        shown = self.run_line("^2: ", "search", "line").stdout.splitlines()
        self.assertEqual([int(line.partition(":")[0]) for line in shown],
                         [n for n in range(1, 601) if n not in numbers])
        # Nothing that was deleted comes back, and a shard without its last goes on.
        self.run_line("^loaded 0 documents", "load-log", self.log)
        with open(self.log, "a", encoding="utf-8") as log:
            log.writelines(map(self.line, range(601, 701)))
        self.run_line("^loaded 100 documents .* complete to 700$", "load-log", self.log)
        self.run_line("(?m)^count 694 complete to 700$", "counts")

    def test_each_shard_is_looked_after(self):
        rows = r"^a: {0}\nb: {0}\nc: {0}\n$"
        for command, told in [("check", "ok 200 documents next [0-9]+ segments [0-9]+"),
                              ("commit", "committed"), ("tidy", "tidied"), ("merge", "merged"),
                              ("check", "ok [0-9]+ documents next [0-9]+ segments 1"),
                              ("close", "closed")]:
            ran = self.ran(command)
            # Of ten blocks of 64, the last of 24, the first shard has four, the others three.
            told = told.replace("200", "(?:216|192)")
            self.assertRegex(ran.stdout, rows.format(told))
            self.assertEqual((ran.stderr, ran.returncode), ("", 0))
        self.assert_whole()

    def test_sessions_that_stay_open(self):
        ends = time.monotonic() + LONG
        while self.machines.sessions("a"):  # That of the last command, which nobody waits for.
            self.assertLess(time.monotonic(), ends)
            time.sleep(0.01)
        self.run_line("complete to 600", "open")
        kept = self.machines.sessions("a")
        self.assertEqual(len(kept), 1)
        self.run_line("^600$", "search", "--count", "line")
        self.assertEqual(self.machines.sessions("a"), kept)
        self.run_line("^a: closed", "close")
        with Store(self.folder / "a", wait=LONG) as store:
            self.assertEqual(store.count().live, len(self.places("a")))

    def test_a_prompt(self):
        typed = "help\nfind w3 w4\nfind line (\nshow 2\nshow 601\nshow x\ndelete 2\nshow 2\n\ncounts\n" \
                "tidy\nquit\n"
        ran = self.run_line("find QUERY", "shell", input=typed)
        self.assertRegex(ran.stdout, r"(?s)found 0\n.*refused query .*\^\n.*line 2 w2 filling.*"
                                     r"no such document\n.*refused 'x' is no.*deleted 2\n.*"
                                     r"no such document\n.*count 599 complete to 600\n.*c: tidied")
        self.assertEqual((ran.returncode, ran.stderr), (0, ""))

    def test_a_reader_who_goes_away(self):
        search = subprocess.Popen([sys.executable, "-m", "rubewola_shards", self.file, "search",
                                   "line"], stdout=subprocess.PIPE, stderr=subprocess.PIPE)
        search.stdout.close()
        self.assertEqual((search.stderr.read(), search.wait()), (b"", 0))

    def test_help_names_each_command(self):
        ran = subprocess.run([sys.executable, "-m", "rubewola_shards", "--help"], check=True,
                             capture_output=True, encoding="utf-8")
        for command in ("scheduler", "worker", "create", "load-log", "load-mbox", "search", "counts",
                        "commit", "delete", "tidy", "merge", "check", "open", "close", "shell"):
            self.assertRegex(ran.stdout, rf"(?m)^ +{command}\b")


if __name__ == "__main__":
    unittest.main()
