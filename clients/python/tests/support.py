"""What the tests share: a folder with a store, files in it, and the client's command line."""

import functools
import io
import os
import shutil
import signal
import subprocess
import sys
import tempfile
import time
import unittest
from contextlib import redirect_stderr, redirect_stdout
from pathlib import Path
from unittest import mock

from rubewola import Store, __main__, results, searching

TOP = Path(__file__).resolve().parents[3]
RUBEWOLA = [sys.executable, "-m", "rubewola"]
LONG = 60  # Seconds that nothing here takes, also on a machine that has other work.


class Stores(unittest.TestCase):
    """Each test has a folder, with its store."""

    def setUp(self):
        self.folder = Path(tempfile.mkdtemp()).resolve()
        self.addCleanup(shutil.rmtree, self.folder)
        self.store = self.folder / "s"

    def write(self, name, data):
        path = self.folder / name
        path.parent.mkdir(parents=True, exist_ok=True)
        path.write_bytes(data if isinstance(data, bytes) else data.encode())
        return path

    def ran(self, command, *words, **settings):
        """What a command line says, and its status. It runs in a process of its own where it has
        an input or starts others, else here, which is quicker."""
        if settings or "--jobs" in words:
            settings = {"capture_output": True, "check": False, **settings}
            return subprocess.run([*RUBEWOLA, command, self.store, *words], encoding="utf-8",
                                  errors="surrogateescape", **settings)
        said, told = (io.TextIOWrapper(io.BytesIO(), "utf-8", "surrogateescape") for _ in range(2))
        line = ["rubewola", command, str(self.store), *map(str, words)]
        with mock.patch.object(sys, "argv", line), redirect_stdout(said), redirect_stderr(told):
            status = __main__.main()
        for stream in (said, told):
            stream.seek(0)
        return subprocess.CompletedProcess(line, status, said.read(), told.read())

    def run_line(self, told, command, *words, status=0, **settings):
        ran = self.ran(command, *words, **settings)
        self.assertRegex(ran.stdout + ran.stderr, told)
        if status is not None:
            self.assertEqual(ran.returncode, status)
        return ran

    def wait_for(self, condition):
        """Waits until the condition holds, as long as a slow machine may need."""
        ends = time.monotonic() + LONG
        while not condition():
            self.assertLess(time.monotonic(), ends)
            time.sleep(0.01)

    def start(self, command, *words):
        """A process with a session of its own, which heeds an interrupt also where these tests run
        in the background of a shell, whose processes ignore it."""
        return subprocess.Popen([*RUBEWOLA, command, self.store, *words], stdout=subprocess.PIPE,
                                stderr=subprocess.PIPE, encoding="utf-8", start_new_session=True,
                                preexec_fn=lambda: signal.signal(signal.SIGINT, signal.SIG_DFL))

    def loaded(self, count, command, *words):
        self.run_line(rf"(?m)^loaded {count} documents\b", command, *words)

    def found(self, query):
        with Store(self.store, wait=LONG) as store:
            return searching.find(store, query)

    def assert_found(self, wanted):
        with Store(self.store, wait=LONG) as store:
            self.assertEqual({query: searching.find(store, query) for query in wanted}, wanted)

    def texts(self):
        with Store(self.store, wait=LONG) as store:
            numbers = store.find("NOT xyzzy")
            return dict(zip(numbers, (results.parsed(text, 0)["text"]
                                      for text in store.show_all(numbers))))

    def kill_in_midst(self, command, *words, commits=1):
        """Kills a loader after so many commits or at its end, and gives whether it was killed."""
        loader = self.start(command, *words)
        before, seen = None, 0
        while loader.poll() is None and seen < commits:
            now = self.store.stat().st_blocks if self.store.exists() else None
            seen, before = seen + (before is not None and now != before), now
            time.sleep(0.001)
        loader.send_signal(signal.SIGKILL)
        loader.communicate()
        return loader.returncode == -signal.SIGKILL


@functools.lru_cache(maxsize=None)
def reads():
    """Whether the program has a session that only reads."""
    line = [os.environ["RUBEWOLA_PROGRAM"], "read", "/"]
    return subprocess.run(line, capture_output=True, check=False).returncode != 2


def older(folder):
    """A program that has no such session."""
    script = folder / "older"
    script.write_text('#!/bin/sh\nif [ "$1" = read ]; then echo no >&2; exit 2; fi\n'
                      f'exec {os.environ["RUBEWOLA_PROGRAM"]} "$@"\n')
    script.chmod(0o755)
    return mock.patch.dict(os.environ, RUBEWOLA_PROGRAM=str(script))


def processes_of(session):
    """The processes of a session, but for those that have ended."""
    found = []
    for status in Path("/proc").glob("[0-9]*/stat"):
        try:
            told = status.read_text("utf-8", "replace").rpartition(")")[2].split()
        except OSError:
            continue
        if int(told[3]) == session and told[0] != "Z":
            found.append(int(status.parent.name))
    return found


def mail(body="text", **fields):
    """A mail's bytes: its fields, an empty line, its body."""
    names = {name.replace("_", "-"): value for name, value in fields.items()}
    return "".join(f"{name}: {value}\n" for name, value in names.items()) + f"\n{body}\n"


def mbox(*mails):
    """A mailbox of these mails."""
    lines = (part if isinstance(part, bytes) else part.encode() for part in mails)
    return b"".join(b"From x Fri May 14 23:30:00 2010\n" + part + b"\n" for part in lines)
