"""The config file, a pager, and a terminal without colours."""

import contextlib
import os
import random
import subprocess
import sys
import unittest
from unittest import mock

from rubewola import Store, config, searching
from rubewola.commands import candidates
from rubewola.errors import Misused

from support import RUBEWOLA, Stores

HAS_TOML = sys.version_info >= (3, 11)


class Files(Stores):
    """A config file of its own."""

    def setUp(self):
        super().setUp()
        home = mock.patch.dict(os.environ, {"XDG_CONFIG_HOME": str(self.folder / "c")})
        home.start()
        self.addCleanup(home.stop)
        with Store.create(self.store, 4_096) as store:
            list(store.add_all(["eins wort", "zwei wort", "drei wort", "wort"]))
            store.commit()

    def config(self, text):
        self.write("c/rubewola/config.toml", text)


@unittest.skipUnless(HAS_TOML, "wants Python 3.11")
class Configs(Files):
    """What it sets, and what is refused."""

    def test_saved_searches(self):
        self.config('[searches]\nab = "eins OR zwei"\nabc = "saved:ab OR drei"\n"x y" = "drei"\n')
        self.assert_found({"saved:ab": [1, 2], "NOT saved:ab": [3, 4], "Saved:abc wort": [1, 2, 3],
                           'saved:"x y"': [3], "wort NOT saved:abc": [4]})
        self.run_line(r"\A2\n\Z", "search", "--count", "saved:ab")
        self.run_line('(?s)no search is saved as "q" in .*config.toml; there are ab, abc, x y.*\n *\\^',
                      "search", "wort saved:q", status=2)
        self.assertEqual(candidates(["search", "s", "sav"]), ["saved:ab", "saved:abc", "saved:x y"])
        self.config('[searches]\na = "saved:b saved:b"\nb = "saved:a saved:a"\nc = "x )"\n')
        self.run_line("name one another", "search", "saved:a", status=2)
        self.run_line("a closing bracket", "search", "saved:c", status=2)

    def test_defaults(self):
        self.config('[defaults.search]\nlimit = 2\nnewest = true\ncount = false\n'
                    '[defaults.load-log]\njobs = 1\n')
        self.run_line(r"\A4: wort\n3: drei wort\n\Z", "search", "wort")
        self.run_line(r"\A4: wort\n\Z", "search", "--limit", "1", "wort")
        self.run_line(r"\Adrei wort\n\Z", "show", "3")

    def test_a_store(self):
        self.config(f'store = "{self.store}"\n')
        line = [*RUBEWOLA, "search", "--count", "wort"]
        bare = {name: value for name, value in os.environ.items() if name != "RUBEWOLA_STORE"}
        ran = subprocess.run(line, capture_output=True, encoding="utf-8", check=True, env=bare)
        self.assertEqual(ran.stdout, "4\n")

    def test_what_is_refused(self):
        for text, told in [
                ("x = 1", "x is no setting"), ("[search]\n", "search is no setting"),
                ("store = 1", "store is no text"), ("searches = 1", "searches is no table"),
                ("store = ", "config.toml: "), ("a" * 2_000_000, "more than 1,048,576"),
                ("[searches]\na = 1", "searches.a is no query"), ("[defaults]\nsearch = 1", "no table"),
                ("[defaults.search]\nlimit = true", "no option with such a value"),
                ("[defaults.search]\nlimit = 0", "at least 1"), ("[defaults.search]\nx = 1", "no option"),
                ("[defaults.search]\nsort = \"x\"", "is one of"), ("[defaults.search]\nlimit = [1]", "no table"),
                ('[filters]\n"application/pdf" = "x"', "has a list of words"),
                ('[filters]\npdf = ["x"]', "has a list"), ('[filters]\n"a/b" = [""]', "has a list"),
                ('[filters]\n"a/b" = ["a\\u0000"]', "has a list"), ("\udcff", "config.toml: ")]:
            self.config(text.encode("utf-8", "surrogateescape"))
            self.run_line(told, "search", "wort", status=2)
        self.config("[" * 900_000)
        self.run_line(r"config\.toml: ", "search", "wort", status=2)

    def test_files_of_chance(self):
        draw = random.Random(9)
        pieces = ["[searches]", "[defaults.search]", "[filters]", "\n", "a = ", '"eins"', "limit = ",
                  "3", "[", "]", "true", '"a/b" = ', '["x"]', "store = ", ".", "=", '"', "saved:a"]
        for _ in range(400):
            self.config("".join(draw.choices(pieces, k=draw.randint(0, 9))))
            with contextlib.suppress(Misused):
                found = config.read()
                self.assertTrue(all(isinstance(one, str) for one in found.searches.values()))

    def test_no_file(self):
        self.run_line('"saved"|no search is saved', "search", "saved:ab", status=2)
        self.assertEqual(config.read(), config.Config())

    def test_a_python_without_toml(self):
        self.config('store = "x"')
        with mock.patch.dict(sys.modules, {"tomllib": None}):
            self.run_line("wants Python 3.11", "search", "wort")

    def test_a_query_names_no_search(self):
        self.config('[searches]\nab = "eins"\n')
        with Store(self.store) as store:
            self.assertEqual(searching.find(store, '"saved:ab"'), [])


class Terminals(Files):
    """What is printed on a terminal."""

    def shown(self, *words, **named):
        terminal, other = os.openpty()
        bare = {name: value for name, value in os.environ.items()
                if name not in ("PAGER", "RUBEWOLA_PAGER", "NO_COLOR")}
        subprocess.run([*RUBEWOLA, words[0], self.store, *words[1:]], stdout=other, check=True,
                       env={**bare, "TERM": "xterm", **named})
        os.close(other)
        pieces = []
        with contextlib.suppress(OSError):  # So its end is told.
            while piece := os.read(terminal, 65_536):
                pieces.append(piece)
        os.close(terminal)
        return b"".join(pieces).decode().replace("\r\n", "\n")

    def test_no_colours(self):
        self.assertIn("\x1b[1mzwei", self.shown("search", "zwei", PAGER="cat"))
        self.assertEqual(self.shown("search", "zwei", PAGER="cat", NO_COLOR="1"), "2: zwei wort\n")
        self.assertIn("\x1b[1m", self.shown("search", "zwei", PAGER="cat", NO_COLOR=""))

    def test_a_pager(self):
        pager = "sed s/^/P/"
        for words, named, told in [
                (("search", "zwei"), {"PAGER": pager}, "P2: zwei wort\n"),
                (("search", "zwei"), {"PAGER": "x", "RUBEWOLA_PAGER": pager}, "P2: zwei wort\n"),
                (("search", "zwei"), {"PAGER": pager, "RUBEWOLA_PAGER": ""}, "2: zwei wort\n"),
                (("search", "zwei"), {"PAGER": "no-such-pager -x"}, "2: zwei wort\n"),
                (("search", "zwei"), {"PAGER": pager, "TERM": "dumb"}, "2: zwei wort\n"),
                (("search", "--no-pager", "zwei"), {"PAGER": pager}, "2: zwei wort\n"),
                (("search", "--count", "zwei"), {"PAGER": pager}, "1\n"),
                (("show", "1", "2"), {"PAGER": pager}, "Peins wort\nPzwei wort\n"),
                (("show", "1"), {"PAGER": "'x"}, "eins wort\n"),
                (("search", "wort"), {"PAGER": "head -n 1"}, "1: eins wort\n")]:
            self.assertEqual(self.shown(*words, **{"NO_COLOR": "1", **named}), told, (words, named))
        if HAS_TOML:
            self.config('pager = "sed s/^/Q/"')
            self.assertEqual(self.shown("show", "1", PAGER=pager), "Qeins wort\n")


if __name__ == "__main__":
    unittest.main()
