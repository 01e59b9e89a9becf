"""Documents of any shape, which another program may have added: each view shows them."""

import json
import os
import random
import subprocess

from rubewola import Store, results
from rubewola.prompt import answer
from rubewola.words import NAMING, SIGN

from pages import Page
from support import Stores, mail, mbox

SEED, TEXTS = 7, 150
# What texts are made of: words of loaders and pieces of them, ends of lines, and odd signs.
PIECES = [
    "wort", " ", "\v", "\v\x1d", "\x1d", f"{SIGN}mbox", f"{SIGN}maildir", f"{SIGN}log", f" {SIGN}",
    f"{SIGN}json", f" {SIGN}commit", f" {NAMING}commit_x", f" {NAMING}commit_{'9' * 40}",
    f" {NAMING}commit_²", f" {SIGN}20100514", f" {SIGN}20109999", f" {SIGN}²²²²²²²²", f" {SIGN}201005",
    f" {NAMING}path_00", f" {NAMING}path__2Fm_2Fcur_2Fa", f" {NAMING}path_", f" {NAMING}id_",
    f" {NAMING}id__FF", f" {NAMING}read_²_x", f" {NAMING}read_{'1' * 30}_x", f" {NAMING}read_5_x",
    f" {NAMING}in_a_2Eb", f" {NAMING}in_", f" {SIGN}k12", f" {SIGN}l²", f" {SIGN}k{'9' * 30}",
    f" {SIGN}23", f" {SIGN}20100514 {SIGN}99", "23:5", "23:59:5x", "99:99:99", " !#$%&()*",
    f" {NAMING}first_x", f" {NAMING}file_x", f" {NAMING}sum_x", f" {NAMING}name__ZZ",
    "2010-05-14 23:30:00 +0000", "2010-05-14 23:30:00 -9x00", "9999-99-99 99:99:99 +9999",
    "2010x05x14 23:30:00", "2010-05", "\v\v\v\v\v\v", "[cut]", "\v[cut]", "<", '"', "((((((", "\\", "\\n", "\0", "\ufffd",
    "\u202e", "\u0301", "<b@x>", "Ada <a@x>", "\x1b[31m", "\r", "é", "\U0010ffff", "id_x path_y",
]


class Shapes(Stores):
    """A store of texts of chance, filled by the shell."""

    def setUp(self):
        super().setUp()
        self.draw = random.Random(SEED)
        texts = ["".join(self.draw.choices(PIECES, k=self.draw.randint(0, 14)))
                 for _ in range(TEXTS)]
        texts.append(f"{'(' * 3_000}\v\v\v\v2010-05-14\v\v\vwort\v\x1d{SIGN}mbox {SIGN}20100514")
        texts.append(f"a\v\v\v\v2010x05x14 23:30:00\v\v\vwort\v\x1d{SIGN}mbox {SIGN}20100514")
        texts.append("\U0001f600" * 262_000 + f"\v[cut]\v\x1d{SIGN}mbox {SIGN}20100514")
        self.fill(texts)

    def fill(self, texts):
        Store.create(self.store, 32_768).close()
        lines = "".join(f"add {text}\n" for text in [*texts, "zuletzt wort"]) + "commit\nquit\n"
        ran = subprocess.run([os.environ["RUBEWOLA_PROGRAM"], "run", self.store], check=True,
                             input=lines.encode(), capture_output=True)
        self.count = ran.stdout.count(b"added ")
        self.assertEqual(self.count, len(texts) + 1)

    def test_search_in_each_form(self):
        for words in (["--format", "text"], ["--format", "paths"], ["--format", "json"],
                      ["--context"], ["--limit", "5"], ["--limit", "300"], ["-0"]):
            with self.subTest(words):
                ran = self.run_line(r"\A", "search", *words, "NOT xyzzy")
                self.assertEqual(ran.stderr, "")
                self.assertTrue(ran.stdout)
                if "json" in words:
                    self.assertEqual(len([*map(json.loads, ran.stdout.splitlines())]), self.count)

    def test_show(self):
        ran = self.run_line(r"\A", "show", *range(1, self.count + 1))
        self.assertEqual(ran.stderr, "")

    def test_the_page(self):
        page = Page(self, self.store)
        for start in range(0, self.count, 20):
            answer_ = page.find("NOT xyzzy", start)
            self.assertEqual((answer_.status, page.tags(answer_).bad), (200, []), start)
        for number in range(1, self.count + 1):
            answer_ = page.ask(f"doc/0/{number}?q=wort")
            self.assertEqual((answer_.status, page.tags(answer_).bad), (200, []), number)

    def test_the_prompt_and_what_a_store_has(self):
        with Store(self.store) as store:
            self.assertIn(f"found {self.count}", answer(store, "find NOT xyzzy"))
            for number in range(1, self.count + 1):
                answer(store, f"show {number}")
        self.run_line(rf"\Adocuments  {self.count}\b", "info")

    def test_a_check(self):
        ran = self.run_line(r"\A", "check", status=None)
        self.assertIn(ran.returncode, (0, 1))
        self.assertNotIn("Traceback", ran.stderr)

    def test_loads(self):
        self.write("log", "2010-05-14 eine zeile\nzweite\n")
        self.write("m/cur/a", mail("brief"))
        self.write("box", mbox(mail("post")))
        for command, name in (("load-log", "log"), ("load-maildir", "m"), ("load-mbox", "box")):
            self.run_line("^loaded [12] documents|filled by an earlier client", command,
                          self.folder / name, status=None)
        self.run_line(r"\A", "delete", "--query", "zuletzt")

    def test_parts_of_any_text(self):
        for _ in range(2_000):
            text = "".join(self.draw.choices(PIECES, k=self.draw.randint(0, 20)))
            doc = results.parsed(text.replace("\v", "\n"), 1)
            for form in results.FORMATS.values():
                form(doc)


class Order(Stores):
    """The order is that of moments, whatever clocks the writers had."""

    def test_by_moments(self):
        days = ("Sat, 15 May 2010 00:30:00 +0200", "Fri, 14 May 2010 22:45:00 +0000",
                "Fri, 14 May 2010 16:50:00 -0600", "Fri, 14 May 2010 22:40:00 +0000")
        self.loaded(4, "load-mbox", self.write("box", mbox(*(
            mail("wort", From="a@x", Subject=f"s{at}", Date=day) for at, day in enumerate(days)))))
        ran = self.run_line(r"\A", "search", "wort")
        self.assertEqual([line.split(":")[0] for line in ran.stdout.splitlines()],
                         ["1", "4", "2", "3"])
        # The day that is shown is the writer's.
        self.assertRegex(ran.stdout, r"(?m)^1: 2010-05-15 ")


if __name__ == "__main__":
    import unittest
    unittest.main()
