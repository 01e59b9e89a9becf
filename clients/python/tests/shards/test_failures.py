"""What an archive's user sees where a session, a worker, a machine, a scheduler or a loader dies,
and that nothing that was acknowledged is lost: a test for each row of the table in
docs/MACHINES.md."""

import contextlib
import os
import re
import resource
import signal
import tempfile
import threading
import time
import unittest
from pathlib import Path

from rubewola import Store
from rubewola_shards.faults import Missing

from fleets import DISKS, LONG, Shards, need_distributed


def setUpModule():
    need_distributed()


class Loads(Shards):
    """A load that is disturbed in its midst."""

    def test_a_session_killed(self):
        self.make("ab")
        loader = self.start_load()
        for pid in self.machines.sessions("a"):
            os.kill(pid, signal.SIGKILL)
        self.assert_loads(loader)

    def test_a_worker_killed(self):
        self.make("abc")
        loader = self.start_load()
        os.kill(self.machines.worker("b"), signal.SIGKILL)
        self.addCleanup(self.machines.settle)
        self.assert_loads(loader)

    def test_the_loader_killed(self):
        self.make("abc")
        loader = self.start_load()
        loader.kill()
        loader.wait()
        told = self.run_line("^", "counts").stdout
        self.assertNotIn(f"complete to {self.LINES}", told)
        self.load()
        self.assert_whole()

    def test_the_scheduler_killed(self):
        self.make("abc")
        loader, workers = self.start_load(), [self.machines.processes[name] for name in DISKS]
        self.addCleanup(self.machines.settle)
        self.machines.kill("scheduler")
        for worker in workers:
            worker.wait(LONG)  # Also one whose session decodes ends with its scheduler.
        loader.kill()
        loader.wait()
        self.machines.settle()
        self.load()
        self.assert_whole()

    def test_another_input(self):
        self.make("ab")
        self.load()
        for name, lines, told in [
                ("short", [self.line(n) for n in range(1, self.LINES)], "it ends before document"),
                ("other", ["x\n"] * self.LINES, "document [0-9]+, .'s last, is another")]:
            self.run_line(f"other input: {told}.*; nothing was stored", "load-log",
                          self.write(name, "".join(lines)), status=2)
        self.assert_whole()


class Searches(Shards):
    """An archive that is searched. All tests have the same one, and leave it whole."""

    @classmethod
    def setUpClass(cls):
        super().setUpClass()
        cls.kept = Path(cls.enterClassContext(tempfile.TemporaryDirectory())).resolve()

    def setUp(self):
        super().setUp()
        self.folder, self.file = self.kept, self.kept / "shards.toml"
        if not self.file.exists():
            self.make("abc")
            self.load()

    def test_a_session_killed(self):
        self.run_line("^", "open")
        for name in "ab":
            for pid in self.machines.sessions(name):
                os.kill(pid, signal.SIGKILL)
        self.assert_whole()
        self.run_line("a: closed", "close")

    def test_a_worker_killed_while_it_is_asked(self):
        def kill_two():
            for _ in range(2):
                time.sleep(0.3)
                self.kill_worker("b")

        killer, told, ends = threading.Thread(target=kill_two), [], time.monotonic() + LONG
        with self.finder() as find:
            killer.start()
            while (killer.is_alive() or len(told) < 20) and time.monotonic() < ends:
                told.append(find())
            killer.join()
        wanted = [*range(self.LINES - 8, self.LINES + 1)]
        for found in told:
            self.assertEqual(found, (self.LINES, wanted))

    def test_a_worker_killed_before_its_scheduler_knows(self):
        scheduler = self.machines.processes["scheduler"].pid
        goes_on = threading.Timer(1, os.kill, (scheduler, signal.SIGCONT))
        with self.finder() as find:
            before = find()
            os.kill(scheduler, signal.SIGSTOP)
            goes_on.start()
            os.kill(self.machines.worker("b"), signal.SIGKILL)
            time.sleep(0.5)  # The connection to the worker is closed by then.
            self.assertEqual(find(), before)
        goes_on.join()

    def fleet(self, wait=LONG):
        """A connection."""
        from rubewola_shards.archive import Archive
        from rubewola_shards.fleet import Fleet

        return Fleet(Archive.read(self.file), wait)

    @contextlib.contextmanager
    def finder(self, wait=LONG):
        """A connection that finds the last nine lines, again and again."""
        from rubewola_shards import answers

        with self.fleet(wait) as fleet:
            yield lambda: answers.find(fleet, "line", 9, self.fail)

    @contextlib.contextmanager
    def still_scheduler(self):
        """The scheduler stands still, at most for as long as a test is to hang."""
        scheduler = self.machines.processes["scheduler"].pid
        goes_on = threading.Timer(20, os.kill, (scheduler, signal.SIGCONT))
        os.kill(scheduler, signal.SIGSTOP)
        goes_on.start()
        try:
            yield rf"no scheduler at {self.machines.address}"
        finally:
            goes_on.cancel()
            os.kill(scheduler, signal.SIGCONT)

    def kill_worker(self, name):
        """Kills a worker, and waits until its nanny has started another."""
        killed, ends = self.machines.worker(name), time.monotonic() + LONG
        os.kill(killed, signal.SIGKILL)
        while time.monotonic() < ends:
            with contextlib.suppress(LookupError, OSError):
                if self.machines.worker(name) != killed:
                    return
            time.sleep(0.01)

    def test_a_machine_gone(self):
        self.addCleanup(self.machines.settle)
        self.machines.kill("b")
        self.run_line(r"shards are missing: b \(no worker has disk-b\)", "--wait", 5, "search",
                      "--count", "line", status=2)
        ran = self.run_line("^", "--wait", 5, "search", "--partial", "line", status=3)
        self.assertRegex(ran.stderr, r"partial answer: b is missing \(no worker has disk-b\)")
        gone = set(self.places("b"))
        shown = [int(line.partition(":")[0]) for line in ran.stdout.splitlines()]
        self.assertEqual(shown, [n for n in range(1, self.LINES + 1) if n not in gone])
        ran = self.run_line("b is missing", "--wait", 5, "counts", "--partial", status=3)
        self.assertNotIn("complete", ran.stdout)
        self.run_line(r"b \(no worker has disk-b\)", "--wait", 5, "load-log", self.log, status=2)
        # The disk is put into another machine.
        self.machines.start("other", "worker", "--folder", self.machines.folder, "disk-b")
        self.addCleanup(self.machines.kill, "other")
        self.run_line("^", "--wait", LONG, "search", "--count", "line")
        self.assert_whole()

    def test_a_worker_that_stands_still(self):
        self.run_line("^", "open")
        still = self.machines.worker("b")
        os.kill(still, signal.SIGSTOP)
        try:
            # On a machine that has much other work another may be as slow.
            self.run_line(r"missing: .*\bb\b.* \(no answer in 6 s\)", "--wait", 6, "search", "line",
                          status=2)
        finally:
            os.kill(still, signal.SIGCONT)
        self.assert_whole()
        self.run_line("^", "close")

    def test_a_store_that_another_program_has(self):
        with Store(self.folder / "a", wait=LONG):
            self.run_line(r"missing: a \(\S+: in use ", "--wait", 2, "search", "line", status=2)
        self.assert_whole()

    def test_the_scheduler_killed(self):
        self.addCleanup(self.machines.settle)
        self.machines.kill("scheduler")
        self.run_line(rf"missing: a, b, c .no scheduler at {self.machines.address}: ", "--wait", 2,
                      "search", "--partial", "line", status=2)
        self.machines.settle()
        self.assert_whole()

    def test_a_scheduler_that_stands_still(self):
        with self.finder(wait=6) as find:
            before = find()
            with self.still_scheduler() as told:
                os.kill(self.machines.worker("b"), signal.SIGKILL)
                self.assertRaisesRegex(Missing, rf"missing: .*\bb .{told}", find)
        with self.finder() as find:
            self.assertEqual(find(), before)

    def test_a_scheduler_that_stands_still_is_told_nothing(self):
        with self.fleet(wait=2) as fleet:
            with self.still_scheduler() as told:
                for call in fleet.keep_open, fleet.let_go:
                    self.assertRaisesRegex(Missing, rf"missing: a, b, c .{told}", call)
            fleet.keep_open()
            fleet.let_go()
        self.assert_whole()

    def test_a_shard_lost_is_loaded_again(self):
        self.run_line("b: closed", "close")
        (self.folder / "b").unlink()
        self.run_line(r"missing: b \(\S+: missing ", "search", "line", status=2)
        made = self.run_line("b: created", "create", "--units", self.UNITS).stdout
        self.assertEqual(made.count("was there"), 2)
        self.assertRegex(self.load().stderr, f"^loaded {len(self.places('b'))} ")
        self.assert_whole()

    def test_shards_in_another_order(self):
        self.addCleanup(self.write_groups, (1, "abc"))
        self.write_groups((1, "bac"))
        self.run_line(f"b .the store is shard 2 of 3 from 1 by {self.BLOCK}, and shard 1 of 3",
                      "search", "line", status=2)
        self.write_groups((1, "abc"))
        self.run_line("c: closed", "close")
        told = self.folder / "c.shard"
        self.addCleanup(told.write_text, told.read_text())
        told.unlink()
        self.run_line("c .no file .*c.shard tells", "search", "line", status=2)
        self.run_line("c .no file .*c.shard tells", "create", "--units", 64, status=2)

    def test_a_damaged_shard(self):
        self.run_line("b: closed", "close")
        at = 34 * 512  # Where the first segment may begin.
        with open(self.folder / "b", "r+b") as store:
            store.seek(at)
            before = store.read(65_536)
            store.seek(at)
            store.write(b"\xff" * len(before))
        self.addCleanup(self.put_back, at, before)
        self.run_line(r"missing: b \(\S+: damaged", "search", "line", status=2)
        ran = self.run_line(r"missing: b \(\S+: damaged", "check", status=2)
        self.assertRegex(ran.stdout, "^a: ok [0-9]+ documents next [0-9]+ segments [0-9]+\nc: ok ")
        self.assertNotIn("b:", ran.stdout)
        self.run_line(r"b is missing .\S+: damaged", "search", "--partial", "line", status=3)

    def test_a_damaged_document(self):
        self.run_line("b: closed", "close")
        number = self.places("b")[9]
        text = self.line(number).split(" filling")[0].encode() + b" "
        data = (self.folder / "b").read_bytes()
        self.assertEqual(data.count(text), 1)
        at = data.index(text) + len(text)
        self.addCleanup(self.put_back, at, data[at:at + 1])
        self.put_back(at, b"\xff")
        ran = self.run_line(rf"(?m)^rubewola-shards: {number}: b: damaged \(", "search", "line",
                            status=2)
        shown = [int(line.partition(":")[0]) for line in ran.stdout.splitlines()]
        self.assertEqual(shown, [n for n in range(1, self.LINES + 1) if n != number])
        typed = f"find line {number}\nshow {number}\nquit\n"
        self.run_line(rf"{number}: b: damaged \((?s:.*)found 1\n.*refused b: damaged \(", "shell",
                      input=typed)
        self.run_line("b: closed", "close")

    def put_back(self, at, data):
        with open(self.folder / "b", "r+b") as store:
            store.seek(at)
            store.write(data)

    def test_a_session_without_memory(self):
        self.run_line("^", "open")
        for pid in self.machines.sessions("b"):
            resource.prlimit(pid, resource.RLIMIT_AS, (1, 1))
        self.run_line(r"missing: b \(memory\)", "search", "NOT w1 OR line", status=2)
        self.assert_whole()
        self.run_line("^", "close")


class Full(Shards):
    """A store that is full, a disk that is, and a group of shards behind it."""

    LINES, LEAST = 2_000, 128  # Units of a store that is too small.

    def test_a_shard_that_grows(self):
        self.write_groups((1, "ab"))
        self.write("b.shard", f"2 of 2 from 1 by {self.BLOCK}\n")
        Store.create(self.folder / "b", self.LEAST).close()
        self.run_line("a: created\nb: was there", "create", "--units", self.UNITS)
        told = re.findall(r"b was full: grown to ([\d,]+) units", self.load().stderr)
        self.assertEqual(int(told[-1].replace(",", "")) * 512, (self.folder / "b").stat().st_size)
        self.assertEqual(len(told), len(set(told)))
        self.assert_whole()

    def test_a_group_behind_a_full_shard(self):
        self.write_groups((1, "ab"))
        self.write("b.shard", f"2 of 2 from 1 by {self.BLOCK}\n")
        Store.create(self.folder / "b", self.LEAST).close()
        self.run_line("a: created\nb: was there", "create", "--units", self.UNITS)
        worker = self.machines.worker("b")
        limits = resource.prlimit(worker, resource.RLIMIT_FSIZE)
        self.addCleanup(resource.prlimit, worker, resource.RLIMIT_FSIZE, limits)
        resource.prlimit(worker, resource.RLIMIT_FSIZE, (self.LEAST * 512, limits[1]))
        ran = self.run_line(r"missing: b \(.*no file may have more than", "load-log", self.log,
                            status=2)
        resource.prlimit(worker, resource.RLIMIT_FSIZE, limits)
        before = int(ran.stderr.split("complete to ")[1].split()[0])
        self.assertTrue(0 < before < self.LINES)
        self.run_line(f"complete to {before}$", "counts")
        # The other shard may have gone on: what it has behind the end of its group is no more.
        self.write_groups((1, "ab"), (before + 1, "c"))
        self.run_line("c: created", "create", "--units", self.UNITS)
        self.run_line(f"(?m)^count {before} complete to {before}$", "counts")
        self.assertRegex(self.load().stderr, f"^loaded {self.LINES - before} ")
        self.assert_whole()


if __name__ == "__main__":
    unittest.main()
