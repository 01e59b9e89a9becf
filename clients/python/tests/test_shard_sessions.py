"""The session of a shard, without the engine around it: each call can come twice, or be broken off."""

import asyncio
import gc
import os
import pickle
import resource
import signal
import time
import unittest
from array import array
from pathlib import Path

from rubewola import QueryRefused, Store
from rubewola.logs import Logs, Read
from rubewola.mailboxes import Mailboxes
from rubewola.sources import Entry
from rubewola_shards.session import NoAnswer, Session

from support import LONG, Stores

IDENTITY = "1 of 1 from 1 by 64"


def lines(first, last):
    """The packed tasks of a log's lines."""
    data = "".join(f"line {n} w{n % 3}\n" for n in range(first, last + 1)).encode()
    return pickle.dumps([(Logs.read_chunk, Read(data, [], "", 0, None), True)])


def programs_of(store):
    """The programs that this process has started for a store."""
    found = []
    for task in Path("/proc/self/task").iterdir():
        for pid in (task / "children").read_text().split():
            if os.fsencode(store) in Path(f"/proc/{pid}/cmdline").read_bytes().split(b"\0"):
                found.append(int(pid))
    return found


def entries_of(texts, _=True):
    """Entries of bare texts, whatever they are."""
    return [Entry(text, "") for text in texts]


def waiting_for(path, _=True):
    """Two entries, of which one is slow, once a file is there."""
    while not os.path.exists(path):
        time.sleep(0.01)
    return [Entry(b"late", "", slow=True), Entry(b"late", "")]


def ended_by(texts, _=True):
    """Entries of texts, of which one may end the process that decodes them."""
    if b"end" in texts:
        os.kill(os.getpid(), signal.SIGKILL)
    return entries_of(texts)


class Sessions(Stores):
    """A session with a store that it made."""

    def setUp(self):
        super().setUp()
        self.session = self.made()
        self.assertEqual(self.ask("create", 4_096), "created")
        self.addCleanup(self.ask, "close")

    def made(self, identity=IDENTITY):
        return Session(str(self.store), identity)

    def ask(self, method, *given):
        return asyncio.run(getattr(self.session, method)(*given))

    def load(self, first, last):
        return self.ask("load", first, last - first + 1, lines(first, last), LONG)

    def refused(self, told, method, *given):
        self.assertRaisesRegex(NoAnswer, told, self.ask, method, *given)

    def found(self, query, limit=99, most=99):
        count, numbers = self.ask("find", query, limit, most)
        return count, [*array("I", numbers)]

    def test_what_is_sent_twice_is_added_once(self):
        for first, last, following in [(1, 10, 11), (1, 10, 11), (1, 15, 16), (4, 9, 16),
                                       (16, 20, 21)]:
            self.assertEqual(self.load(first, last), (following, 0, 0, 0, ()))
        self.refused("documents from 22 on come where 21 is the next", "load", 22, 2, lines(22, 23), LONG)
        self.refused("2 documents from 21 on .* and 3 are told", "load", 21, 3, lines(21, 22), LONG)
        self.assertEqual(self.found("line"), (20, [*range(1, 21)]))
        for number in range(1, 21):
            self.assertEqual(self.found(str(number)), (1, [number]))

    def test_a_load_that_fails_leaves_nothing_uncommitted(self):
        self.load(1, 3)
        bad = pickle.dumps([(entries_of, [b"good", b"good", b"x" * 1_048_577])])
        self.refused("text too long", "load", 4, 3, bad, LONG)
        self.refused("invalid literal", "load", 4, 1, pickle.dumps([(int, "none")]), LONG)
        self.assertEqual(self.ask("counts", 99), (3, 4))
        self.assertEqual(self.found("good"), (0, []))

    def test_what_was_cut_is_told(self):
        mails = [b"From: ada\n\n" + b"x " * 600_000, b"From: ada\n\ny\n"]
        packed = pickle.dumps([(Mailboxes.read_chunk, mails, True)])
        self.assertEqual(self.ask("load", 1, 2, packed, LONG), (3, 1, 0, 0, ()))

    def test_a_store_that_is_full_grows(self):
        self.store.unlink()
        self.assertEqual(self.ask("create", 64), "created")
        self.load(1, 9)
        self.assertEqual(self.load(10, 400), (401, 0, 0, 0, (self.store.stat().st_size // 512,)))
        self.assertGreater(self.store.stat().st_size, 64 * 512)
        self.assertEqual(self.load(401, 409), (410, 0, 0, 0, ()))
        self.assertEqual(self.found("line", limit=2, most=999), (409, [408, 409]))

    def test_a_growth_that_the_system_refuses(self):
        self.store.unlink()
        self.assertEqual(self.ask("create", 64), "created")
        self.load(1, 9)
        limits = resource.getrlimit(resource.RLIMIT_FSIZE)
        resource.setrlimit(resource.RLIMIT_FSIZE, (40_000, limits[1]))
        self.addCleanup(resource.setrlimit, resource.RLIMIT_FSIZE, limits)
        self.refused(f"{self.store}: [0-9,]+ bytes are wanted, and no file may have more than 40,000",
                     "load", 10, 391, lines(10, 400), LONG)
        resource.setrlimit(resource.RLIMIT_FSIZE, limits)
        self.assertEqual(self.ask("counts", 999), (9, 10))

    def test_commands_queue(self):
        async def loads():
            first = await self.session.load(1, 500, lines(1, 500), LONG)
            return first, await self.session.load(501, 100, lines(501, 600), LONG)

        async def beside_finds():
            return await asyncio.gather(loads(), self.session.find("line", 0, 999),
                                        self.session.find("line", 0, 999))

        async def deletions():
            return await asyncio.gather(self.session.delete([1, 2]), self.session.find("line", 0, 999),
                                        self.session.delete([3]), self.session.find("line", 0, 999))
        added, before, behind = asyncio.run(beside_finds())
        self.assertEqual(added, ((501, 0, 0, 0, ()), (601, 0, 0, 0, ())))
        # What is still decoded keeps nobody waiting, and no find sees a part of a load.
        self.assertLessEqual({before, behind}, {(0, b""), (500, b""), (600, b"")})
        self.assertEqual(asyncio.run(deletions()), [[True, True], (598, b""), [True], (597, b"")])

    def test_what_takes_its_time_is_answered_as_such(self):
        tasks = pickle.dumps([(waiting_for, str(self.folder / "now"), True)])
        for _ in range(3):
            self.assertIsNone(self.ask("load", 1, 2, tasks, 0.1))
            self.assertEqual(self.found("late"), (0, []))
        self.write("now", b"")
        self.assertEqual(self.ask("load", 1, 2, tasks, LONG), (3, 0, 0, 1, ()))
        self.assertEqual(self.found("late"), (2, [1, 2]))

    def test_a_batch_that_ends_its_process(self):
        self.load(1, 3)
        bad = pickle.dumps([(ended_by, [b"good", b"end"])])
        self.refused("a process that decodes was ended", "load", 4, 2, bad, LONG)
        self.assertEqual(self.load(4, 6), (7, 0, 0, 0, ()))

    def test_a_program_that_is_killed(self):
        self.load(1, 9)
        for _ in range(2):
            own, = programs_of(self.store)
            os.kill(own, signal.SIGKILL)
            self.assertEqual(self.found("w0"), (3, [3, 6, 9]))

    def test_what_is_behind_the_end_of_a_group(self):
        self.load(1, 30)
        self.assertEqual(self.found("line", limit=2, most=20), (20, [19, 20]))
        self.assertEqual(self.found("w0", limit=0), (10, []))
        self.assertEqual(self.found("line", limit=0, most=0), (0, []))
        self.assertEqual(self.ask("counts", 20), (20, 31))
        self.assertEqual(self.ask("last", 20)[:2], (31, 20))
        self.assertEqual(self.ask("last", 0), (31, 0, ""))

    def test_deletions(self):
        self.load(1, 9)
        self.assertEqual(self.ask("delete", [3, 8, 9]), [True] * 3)
        self.assertEqual(self.ask("delete", [3, 4, 50]), [False, True, False])
        self.ask("close")  # What was deleted is committed.
        self.assertEqual(self.ask("counts", 99), (5, 10))
        following, number, text = self.ask("last", 99)
        self.assertEqual((following, number), (10, 7))
        self.assertIn("line 7", text)
        replies = self.ask("show", [3, 5, 4])
        self.assertEqual([reply[:11] for reply in replies], ["", "text line 5", ""])

    def test_a_store_of_another_shard(self):
        self.assertEqual(self.ask("create", 64), "was there")
        self.ask("close")
        self.session = self.made("2 of 2 from 1 by 64")
        for call in [("create", 64), ("counts", 99), ("check",), ("find", "x", 9, 9)]:
            self.refused(f"the store is shard {IDENTITY}, and shard 2 of 2 from 1 by 64", *call)
        self.store.unlink()
        self.refused("the store is shard", "create", 64)
        self.session = self.made()
        self.refused("missing", "counts", 99)
        self.assertEqual(self.ask("create", 4_096), "created")

    def test_a_store_that_tells_no_shard(self):
        self.ask("close")
        self.write("s.shard", b"").unlink()
        for call in [("create", 64), ("counts", 99), ("check",)]:
            self.refused("no file .*s.shard tells which shard this is", *call)

    def test_refusals_and_checks(self):
        self.load(1, 9)
        self.assertRaises(QueryRefused, self.ask, "find", "a AND", 9, 9)
        self.refused("unknown", "ask", "unheard")
        self.assertEqual(self.ask("check"), "ok 9 documents next 10 segments 1")
        self.ask("close")
        with Store(self.store, wait=LONG):
            self.refused("in use", "counts", 99)
            self.refused("in use", "check")
        self.assertEqual([self.ask("ask", command) for command in ("commit", "tidy", "merge")],
                         ["committed", "tidied", "merged"])

    def test_a_session_that_is_dropped_leaves_no_program(self):
        session = self.made()
        asyncio.run(session.counts(99))
        del session
        gc.collect()
        with Store(self.store, wait=LONG) as store:
            self.assertEqual(store.count(), (0, 1))


if __name__ == "__main__":
    unittest.main()
