"""Loads that go on as files grow."""

import io
import json
import os
import signal
import subprocess
import time
import unittest
from contextlib import redirect_stderr
from unittest import mock

from rubewola import InUse, Store, following, loading
from rubewola.commands import COMMANDS, Given
from rubewola.errors import Overtaken
from rubewola.following import _signs
from rubewola.logs import Logs

from support import LONG, RUBEWOLA, Stores, mail


class Following(Stores):
    """A loader that runs, and files that change."""

    def begin(self, command, *words, **settings):
        loader = subprocess.Popen(
            [*RUBEWOLA, command, "--follow", "--jobs", "1", self.store, *words], encoding="utf-8",
            stderr=subprocess.PIPE, start_new_session=True, **settings,
            preexec_fn=lambda: signal.signal(signal.SIGINT, signal.SIG_DFL))
        self.addCleanup(self.gone, loader)
        return loader

    @staticmethod
    def gone(loader):
        if loader.poll() is None:
            loader.kill()
            loader.wait()
        for stream in filter(None, (loader.stdin, loader.stderr)):
            stream.close()

    def wait_found(self, query, count):
        def is_found():
            if not self.store.exists():
                return False
            with Store(self.store, wait=LONG) as store:
                return len(store.find(query)) == count
        ends = time.monotonic() + LONG
        while not is_found():
            self.assertLess(time.monotonic(), ends, query)
            time.sleep(0.2)

    def end(self, loader):
        loader.send_signal(signal.SIGINT)
        told = loader.communicate()[1]
        self.assertEqual(loader.returncode, 130, told)
        return told

    def test_a_log(self):
        log = self.write("log", "eins\n")
        loader = self.begin("load-log", log)
        self.wait_found("eins", 1)
        with open(log, "a", encoding="utf-8") as more:
            more.write("zwei\ndr")
        self.wait_found("zwei", 1)
        os.rename(log, f"{log}.1")
        with open(f"{log}.1", "a", encoding="utf-8") as more:
            more.write("ei\n")
        self.write("log", "neu\n")
        self.wait_found("drei OR neu", 2)
        told = self.end(loader)
        self.assertIn("loaded 1 documents", told)
        self.assertEqual(told.count("its last line has no end yet"), 1)
        self.assertNotIn("loaded 0", told)

    def test_a_maildir(self):
        self.write("M/new/1.a", mail("eins"))
        loader = self.begin("load-maildir", "--prune", self.folder / "M")
        self.wait_found("eins", 1)
        self.write("M/.Work/new/2.a", mail("zwei"))
        self.wait_found("zwei", 1)
        (self.folder / "M/new/1.a").unlink()
        self.wait_found("eins", 0)
        self.end(loader)

    def test_a_journal_at_standard_input(self):
        def line(at):
            return json.dumps({"__CURSOR": f"c{at}", "__REALTIME_TIMESTAMP": "1", "MESSAGE": f"w{at}"})
        loader = self.begin("load-journal", "-", stdin=subprocess.PIPE)
        loader.stdin.write(f"{line(1)}\n{line(2)[:9]}")
        loader.stdin.flush()
        self.wait_found("w1", 1)
        loader.stdin.write(f"{line(2)[9:]}\n{line(1)}\n")
        loader.stdin.flush()
        self.wait_found("w2", 1)
        loader.stdin.write(line(3))
        loader.stdin.close()
        loader.stdin = None
        self.wait_found("w3", 1)
        loader.communicate()
        self.assertEqual(loader.returncode, 0)
        self.assert_found({"w1 OR w2 OR w3": [1, 2, 3]})

    def test_a_line_of_any_length_at_standard_input(self):
        held = following._Held()
        with mock.patch.object(following, "LONGEST_OBJECT", 1_000):
            for _ in range(99):
                held.put(b"x" * 500)
                self.assertLess(held.size, 2_000)
            self.assertFalse(held.has_end)
            held.put(b"y\nne")
            self.assertTrue(held.has_end)
            self.assertRegex(b"".join(held.taken(False)), rb"\Ax{1000,2000}y\n\Z")
            held.put(b"u")
            self.assertEqual((held.has_end, held.size), (False, 3))
            self.assertEqual((b"".join(held.taken(True)), held.size), (b"neu", 0))

    def test_what_is_in_the_way_is_tried_again(self):
        log = self.write("log", "eins\n")
        given = Given(COMMANDS["load-log"], ["--follow", str(self.store), str(log)])
        for error in (InUse(), Overtaken("meanwhile"), FileNotFoundError(2, "gone", "log")):
            done = [(Logs(str(log)), loading.Loaded(1)), error, KeyboardInterrupt]
            with mock.patch.object(loading, "once", side_effect=done) as once, \
                    mock.patch.object(following, "_signs", side_effect=[1, 2, 2, 2, 2]), \
                    mock.patch.object(time, "sleep"), redirect_stderr(io.StringIO()):
                # What is tried no more comes to the end of the signs.
                self.assertRaises(KeyboardInterrupt, following.follow, given)
            self.assertEqual(once.call_count, 3)

    def test_what_cannot_be_followed(self):
        self.run_line("--follow wants files", "load-log", "--follow", "-", status=2)
        self.run_line("has no option --follow", "load-mbox", "--follow", "x", status=2)
        self.run_line("no text", "load-log", "--follow", self.write("x", b"\1\2\3" * 99), status=2)

    def test_what_shows_a_change(self):
        self.write("M/cur/1.a", mail("eins"))
        words = [str(self.folder / "M"), str(self.folder / "none")]
        os.symlink(self.folder / "M", self.folder / "M/link")
        before = _signs(words)
        self.assertEqual(_signs(words), before)
        self.write("M/cur/2.a", mail("zwei"))
        self.assertNotEqual(_signs(words), before)


if __name__ == "__main__":
    unittest.main()
