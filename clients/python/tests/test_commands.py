"""The command line: what each command prints, tells, and gives as its status."""

import contextlib
import datetime
import os
import random
import re
import shutil
import subprocess
import sys
import unittest
from unittest import mock

from rubewola import Store, days, documents, results, searching
from rubewola.commands import COMMANDS, VERSION, candidates

from support import RUBEWOLA, TOP, Stores, mail, mbox

ENDINGS = {"bash": TOP / "clients/completions/rubewola.bash",
           "zsh": TOP / "clients/completions/_rubewola"}


class Commands(Stores):
    """A store of three mails, of which the last by number is the first by day."""

    def setUp(self):
        super().setUp()
        days = ("Sat, 15 May 2010 08:00:00 +0000", "Sat, 15 May 2010 07:00:00 +0000",
                "Fri, 14 May 2010 23:30:00 +0000")
        self.write("box", mbox(*(mail(f"wort zahl{at}", From=f"Ada {at} <a@x>", Subject=f"s{at}",
                                      Date=day, Message_ID=f"<{at}@x>")
                                 for at, day in enumerate(days, 1))))
        self.loaded(3, "load-mbox", self.folder / "box")

    def test_the_newest_by_day(self):
        for words, told in [(["wort"], "3 2 1"), (["wort", "--limit", "2"], "2 1"),
                            (["wort", "--limit=1"], "1"), (["--limit", "9", "wort"], "3 2 1"),
                            (["zahl1 OR zahl3", "--limit", "1"], "1")]:
            said = self.run_line("wort|Ada", "search", *words).stdout
            self.assertEqual(" ".join(re.findall(r"(?m)^\d+", said)), told, words)

    def test_the_newest_of_many(self):
        draw, day = random.Random(3), datetime.date(1965, 1, 1)
        dates = [draw.choice([None, day + datetime.timedelta(draw.randrange(51_000)),
                              datetime.date(2010, 5, draw.randrange(1, 4))]) for _ in range(300)]
        texts = [documents.document("log", "zeile", days.words_of(date))[0] for date in dates]
        order = sorted(range(300), key=lambda at: (str(dates[at] or ""), at))
        # Those outside the years of ranges are ordered by number where they are too many.
        inner = [at + 4 for at in order if not dates[at] or 1970 <= dates[at].year <= 2099]
        with Store(self.store) as store:
            list(store.add_all(texts))
            for number in {*range(4, 304)} - {*inner}:
                store.delete(number)
            found = searching.answer(store, "zeile OR nichts")
            for count in [*range(1, len(inner) + 2, 7), 2]:
                self.assertEqual(sorted(searching.newest(found, count)),
                                 sorted(inner[-count:]), count)
            long = searching.answer(store, " OR ".join(["zeile"] * 455))
            self.assertEqual(searching.newest(long, 3), found.numbers[-3:])

    def test_several_stores(self):
        other = self.folder / "t"
        log = self.write("log", "2010-05-15 07:30:00 wort im log\n2009-01-01 wort\nwort\n")
        with mock.patch.object(self, "store", other):
            self.loaded(3, "load-log", log)
        line = ["-s", self.store, "--store", other, "wort"]
        with mock.patch.object(self, "ran", self.bare):
            self.run_line(rf"\A{other}:3: wort\n{other}:2: 2009-.*\n{self.store}:3: .*\n"
                          rf"{self.store}:2: .*\n{other}:1: .*\n{self.store}:1: .*\n\Z", "search",
                          *line)
            self.run_line(r"\A6\n\Z", "search", "--count", *line)
            self.run_line(rf'\A{{"store": "{other}", "number": 1,', "search", "--format=json", *line,
                          "im")
            self.run_line(rf"\A{other}:1\n\Z", "search", "--format=paths", *line, "im")
            self.run_line("usage: rubewola info", "info", "-s", self.store, "-s", other, status=2)

    def bare(self, command, *words, **settings):
        """A command line without the test's store in it."""
        line = [*RUBEWOLA, command, *map(str, words)]
        return subprocess.run(line, capture_output=True, encoding="utf-8", check=False, **settings)

    def test_a_store_of_the_environment(self):
        settings = {"env": {**os.environ, "RUBEWOLA_STORE": str(self.store)}}
        with mock.patch.object(self, "ran", self.bare):
            self.run_line(r"\A1\n\Z", "search", "zahl2", "--count", **settings)
            self.run_line(r"s3\n", "show", "3", **settings)
            self.run_line("no such document", "show", "4", status=1, **settings)
            self.run_line("loaded 0 ", "load-mbox", self.folder / "box", **settings)

    def test_show_and_delete(self):
        self.run_line(r"(?s)\AAda 1 <a@x>\n\n\ns1\n2010-05-15 .*zahl1\nAda 3", "show", 1, 3)
        self.run_line(r"(?s)\AAda 3.*9: no such document", "show", 9, 3, status=1)
        self.run_line("x is no number", "show", "x", status=2)
        self.run_line("deleted 1 documents", "delete", 2)
        self.run_line("(?s)2: no such document.*deleted 1 documents", "delete", 2, 3, status=1)
        self.assert_found({"wort": [1]})
        self.run_line("deleted 0 documents", "delete", "--query", "zahl2", status=1)
        self.run_line("wants numbers, or --query", "delete", status=2)
        self.run_line("wants numbers, or --query", "delete", 1, "--query", "wort", status=2)
        self.run_line("no day", "delete", "--query", "date:x", status=2)
        self.run_line("deleted 1 documents", "delete", "--query", "date:2010 wort")
        self.assert_found({"wort": []})

    def test_info(self):
        self.run_line(r"\Adocuments  3 \(3 mbox\), next number 4\n"
                      r"days       2010-05-14 to 2010-05-15\n"
                      r"room       268,435,456 bytes, [1-9][0-9,]* of them on the disk\n\Z", "info")
        self.store.unlink()
        Store.create(self.store, 64).close()
        self.run_line(r"\Adocuments  0, next number 1\ndays       none\n", "info")

    def test_create_tidy_and_merge(self):
        self.store.unlink()
        self.run_line(r"\A\Z", "create", "--size", "1M")
        self.assertEqual(self.store.stat().st_size, 1_048_576)
        self.run_line("exists", "create", status=2)
        with Store(self.store) as store:
            for number in range(9):
                store.add(f"zahl{number}")
                store.commit()
        self.run_line(r"\A\Z", "tidy")
        self.assertEqual(Store.check(self.store).segments, 2)
        self.run_line(r"\A\Z", "merge")
        self.assertEqual(Store.check(self.store).segments, 1)
        for size in ("x", "1X", "M", "1MM", ""):
            self.run_line("--size wants bytes", "create", "--size", size, status=2)

    def test_what_is_no_command_line(self):
        for words, told in [
                (["search"], "usage: rubewola search"), (["search", "--limit", "0", "a"], "at least"),
                (["search", "--limit"], "wants a value"), (["search", "-a", "b"], "behind -- it is"),
                (["search", "--format", "x", "a"], "is one of text, json, paths"),
                (["search", "--count=1", "a"], "no option"), (["info", "x"], "usage: rubewola info"),
                (["nothing"], "is no command"), (["load-log"], "usage: rubewola load-log")]:
            self.run_line(told, *words, status=2)
        self.run_line(r"\Arubewola: -a means nothing here|- means nothing", "search", "--", "-wort",
                      status=0)

    def test_endings_of_lines_and_lines_round_words(self):
        self.run_line("\\A<3@x>\0<2@x>\0<1@x>\0\\Z", "search", "-0", "--format", "paths", "wort")
        self.run_line(r"\A3: .* s3 .*\n    wort zahl3\n\Z", "search", "--context", "zahl3")
        self.run_line(r"\A3: .* s3 .*\n\Z", "search", "zahl3")

    def test_marks_on_a_terminal(self):
        terminal, other = os.openpty()
        subprocess.run([*RUBEWOLA, "search", self.store, "ZAHL3", "s3"], stdout=other, check=True,
                       env={**os.environ, "RUBEWOLA_PAGER": "cat", "NO_COLOR": ""})
        os.close(other)
        self.assertRegex(self.all_of(terminal),
                         r"\A3: .*\x1b\[1ms3\x1b\[m .*\r\n    wort \x1b\[1mzahl3\x1b\[m\r\n\Z")

    @staticmethod
    def all_of(terminal):
        """What was written to a terminal that is closed."""
        pieces = []
        with contextlib.suppress(OSError):  # So its end is told.
            while piece := os.read(terminal, 65_536):
                pieces.append(piece)
        return b"".join(pieces).decode()

    def test_outputs_that_are_closed_or_full(self):
        line = [*RUBEWOLA, "search", self.store, "wort"]
        for redirect, status, told in [(">&-", 2, "standard output is closed"),
                                       ("> /dev/full", 2, "No space left"),
                                       ("| true", 0, ""), (">&- 2>&-", 2, "")]:
            script = f'"$@" {redirect}'
            ran = subprocess.run(["sh", "-c", script, "sh", *line], check=False,
                                 capture_output=True, encoding="utf-8")
            self.assertEqual((ran.returncode, ran.stdout), (status, ""), ran.stderr)
            self.assertIn(told, ran.stderr)
            self.assertNotIn("Traceback", ran.stderr)

    def test_help_and_version(self):
        with mock.patch.object(self, "ran", self.bare):
            for command in COMMANDS.values():
                self.run_line(rf"\Ausage: rubewola {command.name} ", command.name, "--help")
                self.assertIn(f"  {command.name} ", self.run_line("usage", "--help").stdout)
                manual = (TOP / "man/rubewola.1").read_text("utf-8")
                self.assertRegex(manual, rf"(?m)^\.Cm .*\b{command.name}\b")
            version = self.run_line(r"\Arubewola [0-9.]+\n\Z", "--version").stdout
        program = subprocess.run([os.environ["RUBEWOLA_PROGRAM"], "--version"], check=True,
                                 capture_output=True, text=True).stdout
        self.assertEqual(version.split()[1], program.split()[1])
        self.assertEqual(VERSION, program.split()[1])

    def test_senders(self):
        for told, sender in [("Ada Byron <a@x>", "Ada Byron"), ('"Byron, Ada" <a@x>', "Byron, Ada"),
                             ("a@x.org", "a@x.org"), ("<a@x>", "a@x"), ("a@x (Ada)", "Ada"),
                             ("Ada <a@x>, Bo <b@x>", "Ada"), ("", ""), ('"', '"'),
                             ("Ada  Byron\t<a@x>", "Ada Byron")]:
            self.assertEqual(results.sender(told), sender, told)


class Completions(unittest.TestCase):
    """What the shells' completions offer."""

    def test_candidates(self):
        for words, told in [
                (["sea"], ["search"]), (["load-m"], ["load-maildir", "load-mbox"]),
                (["search", ""], []), (["search", "store", "fr"], ["from:"]),
                (["search", "store", "N"], ["NOT"]), (["search", "-s", "store", "da"], ["date:"]),
                (["search", "--c"], ["--count", "--context"]), (["search", "s", "un"], ["unit:"]),
                (["search", "--sort", "o"], ["oldest"]),
                (["search", "--format", "j"], ["json"]), (["show", "store", ""], []),
                (["delete", "store", "--query", "su"], ["subject:"]), (["load-log", "s", ""], []),
                (["nothing", ""], []), (["--v"], ["--version"]), (["ser"], ["serve"]),
                (["serve", "--p"], ["--port"]), (["serve", "store", ""], [])]:
            self.assertEqual(candidates(words), told, words)

    def completed(self, shell, script):
        with mock.patch.dict(os.environ, {"PYTHONPATH": str(TOP / "clients/python")}):
            run = f'rubewola() {{ {sys.executable} -m rubewola "$@"; }}\n{script}'
            return subprocess.run([shell, "-c", run, shell, ENDINGS[shell]], check=True,
                                  capture_output=True, encoding="utf-8").stdout.split()

    def test_bash(self):
        script = ('source "$1"; COMP_WORDS=(rubewola search store {0}); COMP_CWORD=3; _rubewola; '
                  'echo "${{COMPREPLY[@]}}"')
        self.assertEqual(self.completed("bash", script.format("a")), ["attachment:"])
        self.assertEqual(self.completed("bash", script.format("--co")), ["--count", "--context"])

    @unittest.skipUnless(shutil.which("zsh"), "wants zsh (apt-get install zsh)")
    def test_zsh(self):
        script = ('compadd() {{ print -- "$@"; }}; _files() {{ print files; }}; '
                  'words=(rubewola search store {0}); CURRENT=4; source "$1"')
        self.assertEqual(self.completed("zsh", script.format("a")), ["-S", "--", "attachment:"])
        self.assertEqual(self.completed("zsh", script.format("--co")), ["--", "--count", "--context"])
        self.assertEqual(self.completed("zsh", script.format("x")), ["files"])


if __name__ == "__main__":
    unittest.main()
