"""The start of a search: what it imports, and what is installed."""

import os
import re
import signal
import subprocess
import sys
import time
import unittest

from support import TOP, Stores, mail, mbox

# What a search may import, but for what Python has by itself.
LIGHT = {"__future__", "_collections", "_collections_abc", "_operator", "_stat", "collections",
         "collections.abc", "fcntl", "genericpath", "itertools", "keyword", "operator", "os",
         "os.path", "posixpath", "reprlib", "stat", "time"}
OWN = {"actions", "commands", "errors", "layout", "places", "programs", "queries", "results",
       "searching", "store", "words", "__main__"}
SCRIPT = """import sys
before = set(sys.modules)
sys.path.insert(0, sys.argv.pop(1))
from rubewola import __main__
status = __main__.main()
print(status, *sorted(set(sys.modules) - before))
"""


class Starts(Stores):
    """Whole processes."""

    def setUp(self):
        super().setUp()
        box = self.write("box", mbox(*(mail(f"wort zahl{day}", From="Ada Byron <ada@x.org>",
                                            Date=f"Fri, {day} May 2010 23:30:00 +0000",
                                            Message_ID=f"<{day}@x.org>") for day in range(1, 9))))
        self.loaded(8, "load-mbox", box)

    def imported(self, *words):
        """The modules that a command imports, its status, and what it prints."""
        line = [sys.executable, "-SI", "-c", SCRIPT, TOP / "clients/python", *words]
        ran = subprocess.run(line, capture_output=True, encoding="utf-8", check=True)
        *said, last = ran.stdout.splitlines()
        status, *modules = last.split()
        return set(modules), int(status), said

    def test_a_search_imports_little(self):
        for words in (["wort"], ["--count", "zahl1 OR (zahl2 NOT zahl3)"], ["nichts"],
                      ["--format", "paths", "--limit", "2", "from:ada", "subject:x OR wort"],
                      ["--format", "text", "list:x", "OR", "id:<3@x.org>"]):
            with self.subTest(words):
                modules, status, _ = self.imported("search", self.store, *words)
                self.assertEqual(status, words == ["nichts"])
                own = {f"rubewola.{name}" for name in OWN} | {"rubewola"}
                self.assertEqual(modules - own - LIGHT, set())

    def test_an_installed_client(self):
        top = self.folder / "top"
        program = os.environ["RUBEWOLA_PROGRAM"]
        subprocess.run(["make", "--silent", "install", f"PREFIX={top}", f"PROGRAM={program}"],
                       cwd=TOP, check=True, capture_output=True)
        bare = {name: value for name, value in os.environ.items()
                if name not in ("RUBEWOLA_PROGRAM", "PYTHONPATH")}
        entry = top / "bin/rubewola"
        link = self.folder / "link"
        link.symlink_to(entry)
        for line in (entry, link):
            told = subprocess.run([line, "search", "--count", self.store, "wort"], env=bare,
                                  cwd=self.folder, check=True, capture_output=True, text=True)
            self.assertEqual((told.stdout, told.stderr), ("8\n", ""))
        self.assertRegex(entry.read_text("utf-8"), r"\A#!/\S+ -SI\n")
        self.check_modules_of_the_working_directory(top, bare)
        self.check_early_interrupts(entry, bare)
        for package in ("rubewola", "rubewola_shards"):
            sources = {path.stem for path in top.glob(f"lib/rubewola/{package}/*.py")}
            compiled = {path.name.partition(".")[0]
                        for path in top.glob(f"lib/rubewola/{package}/__pycache__/*.pyc")}
            self.assertEqual(sources, compiled)
        subprocess.run(["make", "--silent", "uninstall", f"PREFIX={top}"], cwd=TOP, check=True)
        self.assertEqual([path for path in top.rglob("*") if path.is_file()], [])

    def check_modules_of_the_working_directory(self, top, bare):
        """No program runs a module that lies where it is started."""
        for name in ("argparse", "json", "random", "runpy", "distributed", "rubewola"):
            self.write(f"foreign/{name}.py", "raise SystemExit('foreign')\n")
        for program in ("rubewola", "rubewola-shards"):
            ran = subprocess.run([top / "bin" / program, "--help"], cwd=self.folder / "foreign",
                                 env={**bare, "RUBEWOLA_PYTHON": sys.executable}, check=False,
                                 capture_output=True, text=True)
            self.assertNotIn("foreign", ran.stdout + ran.stderr, program)

    def check_early_interrupts(self, entry, bare):
        """An interrupt, however early, leaves no traceback but that of an interpreter that had not
        come to the entry's first call."""
        lines = entry.read_text("utf-8").splitlines()
        first = next(at for at, line in enumerate(lines, 1) if "SIG_DFL" in line)
        for at in range(16):
            with subprocess.Popen([entry, "search", self.store, "wort"], env=bare, text=True,
                                  stdout=subprocess.DEVNULL, stderr=subprocess.PIPE,
                                  preexec_fn=lambda: signal.signal(
                                      signal.SIGINT, signal.SIG_DFL)) as search:
                time.sleep(at * 0.008)
                search.send_signal(signal.SIGINT)
                told = search.stderr.read()
            begun = [int(at) for at in re.findall(rf'{entry.name}", line (\d+)', told)]
            self.assertTrue("Traceback" not in told or max(begun, default=0) <= first, told)


if __name__ == "__main__":
    unittest.main()
