"""What the tests over real schedulers and workers share: machines, and an archive for each test."""

import atexit
import contextlib
import functools
import io
import re
import shutil
import signal
import subprocess
import sys
import tempfile
import time
import unittest
from unittest import mock

from rubewola_shards import __main__

from machines import SHARDS, Machines
from support import Stores

try:
    import distributed
except ImportError:
    distributed = None

LONG = 300  # Seconds that nothing here takes, also on a machine that has much other work.
PACKAGE = "python3-distributed"
DISKS = "abc"


def need_distributed():
    """Passes a module's tests over where Dask is absent, and says which package has it."""
    if distributed is None:
        print(f"skipped: the tests over real schedulers and workers want {PACKAGE} (apt-get install "
              f"{PACKAGE})", file=sys.stderr)
        raise unittest.SkipTest(f"wants {PACKAGE}")


@functools.lru_cache(maxsize=None)
def _machines():
    folder = tempfile.mkdtemp()
    machines = Machines(folder, DISKS)
    atexit.register(shutil.rmtree, folder, ignore_errors=True)
    atexit.register(machines.stop)
    signal.signal(signal.SIGTERM, lambda *_: sys.exit("the tests were ended"))  # And all they started.
    return machines


def shared():
    """The machines that all tests share: a scheduler, and a worker for each of the disks."""
    machines = _machines()
    if not machines.processes:
        machines.settle()
    return machines


class Shards(Stores):
    """Each test has an archive of its own, in a folder of its own."""

    LINES, BLOCK, UNITS = 12_000, 64, 65_536

    def setUp(self):
        super().setUp()
        self.machines = self.started()
        self.log = self.write("log", "".join(self.line(n) for n in range(1, self.LINES + 1)))
        self.file = self.folder / "shards.toml"

    def started(self):
        """The machines, all there. A test that ends one of them settles them at its end."""
        return shared()

    @staticmethod
    def line(number):
        """A line of the log: `w3` is in each seventh."""
        return f"line {number} w{number % 7} " + "filling " * 5 + "\n"

    def write_groups(self, *groups, block=None):
        """The archive's file, of groups of a first number and the names of shards, each on the disk
        of its first letter."""
        self.machines.write(self.file, [
            (first, [(name, f"disk-{name[0]}", self.folder / name) for name in names])
            for first, names in groups], block or self.BLOCK)

    def make(self, names, block=None):
        """An archive of one group, with its stores."""
        self.write_groups((1, names), block=block)
        self.run_line("created", "create", "--units", self.UNITS)

    def ran(self, *words, **settings):
        """What a command line says, and its status; with an input in a process of its own."""
        if settings:
            return subprocess.run([*SHARDS, self.file, *map(str, words)], capture_output=True,
                                  encoding="utf-8", check=False, timeout=LONG, **settings)
        said, told = io.TextIOWrapper(io.BytesIO(), "utf-8"), io.StringIO()
        line = ["rubewola-shards", str(self.file), *map(str, words)]
        with mock.patch.object(sys, "argv", line), contextlib.redirect_stdout(said), \
                contextlib.redirect_stderr(told):
            status = __main__.main()
        said.seek(0)
        return subprocess.CompletedProcess(line, status, said.read(), told.getvalue())

    def run_line(self, told, *words, status=0, **settings):
        ran = self.ran(*words, **settings)
        said = ran.stdout[-300:] + ran.stderr[-900:]
        self.assertTrue(re.search(told, ran.stdout + ran.stderr), f"{told} is not in {said}")
        self.assertEqual(ran.returncode, status, said)
        return ran

    def load(self, log=None):
        """Loads the log, and wants all of it there."""
        return self.run_line("complete to", "load-log", log or self.log)

    def assert_whole(self, lines=None):
        """Each line of the log is there once, under its own number."""
        lines = lines or self.LINES
        self.run_line(f"(?m)^count {lines} complete to {lines}$", "counts")
        shown = self.run_line("^", "search", "line").stdout.splitlines()
        wanted = [f"{n}: {self.line(n)[:-1]}" for n in range(1, lines + 1)]
        self.assertTrue(shown == wanted, f"{len(shown)} lines, {set(wanted) ^ set(shown)}"[:900])

    def places(self, name):
        """The numbers that a shard of the one group has, counted out by hand."""
        names = [path.name for path in sorted(self.folder.glob("?")) if path.is_file()]
        return [n for n in range(1, self.LINES + 1)
                if names[(n - 1) // self.BLOCK % len(names)] == name]

    def start_load(self):
        """A loader in its midst: a shard of each disk has taken something."""
        stores = [path for path in self.folder.glob("?") if path.is_file()]
        empty = {store: store.stat().st_blocks for store in stores}
        loader = subprocess.Popen([*SHARDS, self.file, "load-log", self.log], stdout=subprocess.PIPE,
                                  stderr=subprocess.PIPE, encoding="utf-8", start_new_session=True)
        self.addCleanup(self.end, loader)
        ends = time.monotonic() + LONG
        while any(store.stat().st_blocks == empty[store] for store in stores):
            self.assertLess(time.monotonic(), ends)
            self.assertIsNone(loader.poll(), "the load was done before it was disturbed")
            time.sleep(0.002)
        return loader

    @staticmethod
    def end(process):
        """Ends a process that this test started, where it has not ended, and reads what it said."""
        if process.poll() is None:
            process.kill()
        process.communicate()

    def assert_loads(self, loader):
        """A disturbed loader comes to its end, and all is there."""
        told, errors = loader.communicate(timeout=LONG)
        self.assertEqual((told, loader.returncode), ("", 0), errors)
        self.assertRegex(errors, f"complete to {self.LINES}$")
        self.assert_whole()
