"""The documents' way to search several stores by GNU parallel: none found is no missing answer."""

import os
import re
import shlex
import shutil
import subprocess
import unittest

from rubewola import Store

from support import LONG, RUBEWOLA, TOP, Stores


@unittest.skipUnless(shutil.which("parallel"), "wants GNU parallel (apt-get install parallel)")
class SideBySide(Stores):
    """Its status is the number of stores without an answer."""

    def setUp(self):
        super().setUp()
        for name, text in [("one", "freeze here"), ("two", "nothing"), ("three", "freeze too")]:
            (self.folder / "shards").mkdir(exist_ok=True)
            with Store.create(self.folder / "shards" / name, 64) as store:
                store.add(text)
                store.commit()
        # A host is a folder; one that is gone is answered as by ssh.
        for name, lines in [("rubewola", f'exec {shlex.join(RUBEWOLA)} "$@"'),
                            ("ssh", 'cd "$1" 2>/dev/null || exit 255; shift; exec sh -c "$*"')]:
            self.write(f"bin/{name}", f"#!/bin/sh\n{lines}\n").chmod(0o755)
        self.page = (TOP / "docs/STORES.md").read_text("utf-8")

    def lines(self, pattern, status):
        """What the page's line prints, with its fields parted by a tab, by rows."""
        line, = re.findall(rf"(?m)^\$ ({pattern}.*)$", self.page)
        path = f"{self.folder / 'bin'}:{os.environ['PATH']}"
        ran = subprocess.run(["sh", "-c", line], cwd=self.folder, capture_output=True, check=False,
                             encoding="utf-8", timeout=LONG, stdin=subprocess.DEVNULL,
                             env={**os.environ, "PATH": path, "HOME": str(self.folder)})
        self.assertEqual(ran.returncode, status, ran.stderr)
        return sorted(ran.stdout.splitlines())

    def test_stores_of_one_machine(self):
        found = ["shards/one\t1: freeze here", "shards/three\t1: freeze too"]
        self.assertEqual(self.lines("parallel --tag", 0), found)
        (self.folder / "shards" / "two").write_bytes(b"no store")
        self.assertEqual(self.lines("parallel --tag", 1), found)
        (self.folder / "shards" / "one").unlink()
        (self.folder / "shards" / "one").symlink_to("nowhere")
        self.assertEqual(self.lines("parallel --tag", 2), found[1:])

    def test_what_the_page_shows(self):
        shutil.rmtree(self.folder / "shards")
        (self.folder / "shards").mkdir()
        self.store = self.folder / "shards/2010"
        self.loaded(3, "load-mbox", TOP / "examples/mails.mbox")
        shown = re.search(r"(?m)^\$ parallel --tag .*\n((?:shards/.*\n)+)", self.page)[1]
        self.assertEqual(self.lines("parallel --tag ", 0), shown.splitlines())

    def test_stores_of_several_machines(self):
        (self.folder / "host").mkdir()
        self.write("machines", "".join(f"host ../shards/{name}\n" for name in ("one", "two", "three")))
        found = ["../shards/one\t1: freeze here", "../shards/three\t1: freeze too"]
        self.assertEqual(self.lines("parallel --colsep", 0), found)
        self.write("machines", "host ../shards/one\ngone ../shards/two\nhost ../shards/none\n")
        self.assertEqual(self.lines("parallel --colsep", 2), found[:1])
