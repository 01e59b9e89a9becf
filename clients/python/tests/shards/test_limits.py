"""That no input hangs a load into shards: each document has the limits that `rubewola` gives it."""

import os
import re
import tempfile
import unittest
from pathlib import Path
from unittest import mock

from rubewola import Store, loading, mailboxes

from fleets import LONG, Shards, need_distributed
from machines import Machines
from shapes import LINES, PLACES, SHAPES
from support import mail, mbox

# What each Python of these machines imports as it starts: a mail with `zaeh` hangs, one with `schwer`
# takes memory without an end, one with `tot` ends its process, and one with `taub` hangs and heeds no
# signal, as a function that is written in C does.
HOSTILE = """
import os, signal
from rubewola import decoding, mails
decoding.SECONDS, decoding.GRACE, decoding.MEMORY = 0.5, 0.5, 200_000_000
def read(raw, whole=mails.read):
    held = []
    while b"zaeh" in raw or b"schwer" in raw:
        if b"schwer" in raw:
            held.append(b"%09d" % len(held) * 100_000)
    if b"tot" in raw:
        os.kill(os.getpid(), signal.SIGKILL)
    if b"taub" in raw:
        sum(range(10**12))
    return whole(raw)
mails.read = read
"""
WORDS = ("zaeh", "schwer", "tot", "taub")
LENGTH = 4_000  # Of a shape.


def setUpModule():
    need_distributed()


class Hostile(Shards):
    """Machines of their own, on which some mails hang."""

    LINES = 1

    def started(self):
        folder = Path(self.enterContext(tempfile.TemporaryDirectory()))
        (folder / "sitecustomize.py").write_text(HOSTILE)
        path = os.pathsep.join([str(folder), os.environ["PYTHONPATH"]])
        self.enterContext(mock.patch.dict(os.environ, PYTHONPATH=path))
        machines = Machines(folder, "ab")
        self.addCleanup(machines.stop)
        machines.settle()
        return machines

    def test_mails_that_hang(self):
        self.make("ab", block=4)
        mails = [mail(f"wort{at} {WORDS[at % 4] if at % 3 == 2 else ''}", Subject=f"kopf{at}",
                      Message_ID=f"<{at}@x>") for at in range(24)]
        box = self.write("box", mbox(*mails))
        # A shard answers that it is still at it, within the time for an answer.
        ran = self.run_line("complete to 24$", "--wait", LONG, "load-mbox", box)
        self.assertRegex(ran.stderr, r"^loaded 24 documents \(8 slow\) in ")
        self.run_line("^24$", "search", "--count", "subject:kopf*")
        found = self.run_line("^", "search", "--format", "paths", "wort*").stdout.splitlines()
        self.assertEqual(found, [f"<{at}@x>" for at in range(24)])
        # The last of a shard, with which a load begins, is one of them.
        self.run_line("^loaded 0 documents in .* complete to 24$", "load-mbox", box)


class Shapes(Shards):
    """Texts that are made to hold a reader up."""

    LINES = 1

    def test_shapes(self):
        self.make("abc", block=16)
        whole = [PLACES[place].replace("{}", shape) for shape in SHAPES.values()
                 for place in ("a text", "a subject", "a type")] + [*LINES.values()]
        box = self.write("box", mbox(*(f"X-N: {at}\n{one[:LENGTH]}" for at, one in enumerate(whole))))
        told = str(loading.load(str(self.store), mailboxes.Mailboxes(str(box))))
        ran = self.run_line("complete to", "--wait", LONG, "load-mbox", box)
        self.assertRegex(ran.stderr, f"(?m)^loaded {re.escape(told)} in ")
        with Store(self.store, wait=LONG) as store:
            wanted = store.count().live
        self.run_line(f"^{wanted}$", "search", "--count", "NOT nothing")


if __name__ == "__main__":
    unittest.main()
