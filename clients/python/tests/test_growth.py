"""Stores that grow: by a command, and by the loaders where they are full."""

import os
import re
import shlex
import shutil
import stat
import subprocess
import unittest
from unittest import mock

from rubewola import (Failed, Full, Refused, Store, StoreError, commands, commits, loading,
                      mailboxes, store)
from rubewola.logs import Logs

from support import LONG, RUBEWOLA, Stores, mail, mbox

GROWN = re.compile(r"^rubewola: (.*) was full: grown to ([\d,]+) units \(([\d,]+) bytes\)$", re.M)
HAS_MOUNTS = bool(shutil.which("unshare")) and not subprocess.run(
    ["unshare", "-Urm", "true"], capture_output=True, check=False).returncode
LEAST = 64  # Units of the smallest store, of which 30 are for documents.
MAILS = 40  # For which it has no room.


def told_units(text):
    """The units of each growth that is told."""
    return [int(units.replace(",", "")) for _, units, _ in GROWN.findall(text)]


class Grown(Stores):
    """Each test begins with the smallest store."""

    def setUp(self):
        super().setUp()
        Store.create(self.store, LEAST).close()

    def units(self):
        return self.store.stat().st_size // 512

    def box(self, name="box", count=MAILS):
        return self.write(name, mbox(*(mail(f"{name} wort{at} " * 99) for at in range(count))))


class Loads(Grown):
    """A loader whose store is full."""

    def test_a_log_that_grows_a_hundredfold(self):
        log, rows, units = self.folder / "log", [], [LEAST]
        for count in (5, 10, 20, 40, 75, 125, 200, 300, 400, 500):
            rows += [f"Nov 26 11:15:56 host unit[{at}]: {'fuell ' * 60}{at}"
                     for at in range(len(rows), count)]
            log.write_text("\n".join(rows) + "\n")
            ran = self.run_line("(?m)^loaded ", "load-log", log)
            lines = ran.stderr.splitlines()
            grown, others = told_units(ran.stderr), [one for one in lines if not GROWN.match(one)]
            self.assertTrue(all(re.match(r"loaded \d+ documents in|rubewola: [\d,]+ loaded ", one)
                                for one in others), others)
            units += grown
            self.assertEqual(self.units(), units[-1])
        self.assertGreaterEqual(len(units), 4)
        for before, after in zip(units, units[1:]):  # Each growth is told once.
            self.assertIn(after // before, (2, 4, 8, 16))
        self.assertEqual(Store.check(self.store).documents, 500)
        self.assertEqual(list(self.texts().values()), rows)
        self.assertEqual(stat.S_IMODE(self.store.stat().st_mode), 0o600)
        self.loaded(0, "load-log", log)

    def test_one_growth_for_a_batch_of_many_units(self):
        ran = self.run_line(rf"(?m)^loaded {MAILS} documents in", "load-mbox", self.box())
        (path, units, size), = GROWN.findall(ran.stderr)
        self.assertEqual((path, int(units.replace(",", ""))), (str(self.store), self.units()))
        self.assertEqual(int(size.replace(",", "")), self.store.stat().st_size)
        self.assertGreater(self.units(), 2 * LEAST)
        self.assert_found({"wort7": [8]})
        self.loaded(0, "load-mbox", self.box())

    def test_each_loader(self):
        text = "fuell " * 3_000
        self.write("m/cur/1000.a.h:2,S", mail(text))
        journal = f'{{"__CURSOR": "c", "__REALTIME_TIMESTAMP": "1", "MESSAGE": "{text}"}}\n'
        inputs = {"load-maildir": self.folder / "m", "load-mbox": self.write("b", mbox(mail(text))),
                  "load-log": self.write("log", f"{text}\n"),
                  "load-json": self.write("json", f'{{"text": "{text}"}}\n'),
                  "load-journal": self.write("journal", journal)}
        for command, path in inputs.items():
            self.store.unlink()
            Store.create(self.store, LEAST).close()
            ran = self.run_line("(?m)^loaded 1 documents in", command, path)
            self.assertEqual(told_units(ran.stderr), [self.units()], command)
            self.assertGreater(self.units(), LEAST)

    def test_a_merge_is_enough(self):
        with Store(self.store) as session:
            session.add("x" * 5_000)  # Twice as many bytes, for it is a word.
            session.commit()
            session.delete(1)
            session.commit()
        log = self.write("log", "y" * 5_000 + "\n")
        with mock.patch.object(Store, "merge", autospec=True, side_effect=Store.merge) as merge:
            ran = self.run_line("(?m)^loaded 1 documents", "load-log", log)
        self.assertEqual((told_units(ran.stderr), self.units(), merge.call_count), ([], LEAST, 1))

    def test_a_merge_of_a_segment_too_large(self):
        too_large = Refused("segment too large")
        with mock.patch.object(Store, "merge", side_effect=too_large) as merge:
            self.loaded(MAILS, "load-mbox", self.box())
        self.assertEqual(merge.call_count, 1)
        self.assertGreater(self.units(), LEAST)

    def test_deletions_that_have_no_room(self):
        for name in ("1000.a.h", "1001.b.h"):
            self.write(f"m/cur/{name}:2,S", mail(name))
        self.loaded(2, "load-maildir", self.folder / "m")
        (self.folder / "m/cur/1000.a.h:2,S").unlink()
        full, commit = Full("full need 2 largest 1"), Store.commit

        def refused_once(session, calls=[]):  # pylint: disable=dangerous-default-value
            calls.append(session)
            if len(calls) == 1:
                raise full
            commit(session)
        with mock.patch.object(Store, "commit", refused_once), \
                mock.patch.object(Store, "merge", side_effect=full):
            ran = self.run_line(r"(?m)^loaded 0 documents \(1 pruned\)", "load-maildir", "--prune",
                                self.folder / "m")
        self.assertEqual(told_units(ran.stderr), [2 * LEAST])
        self.assert_found({"1000.a.h": [], "1001.b.h": [2]})

    def test_two_loaders_of_a_store_that_is_full(self):
        boxes = [self.box(name, 60) for name in ("eins", "zwei")]
        running = [self.start("load-mbox", "--jobs", "1", box) for box in boxes]
        told = [one.communicate(timeout=LONG)[1] for one in running]
        self.assertEqual([one.returncode for one in running], [0, 0], told)
        units = sorted(told_units("".join(told)))
        self.assertEqual(units, sorted(set(units)), told)
        self.assertEqual(units[-1], self.units())
        self.assertEqual([len(self.found(word)) for word in ("eins", "zwei")], [60, 60])


class Refusals(Grown):
    """A growth that is refused."""

    def refused(self, told, *, path):
        """Loads a box that has room, and then one that has none, which is refused; then what was
        committed is there."""
        before = self.units()
        with self.assertRaisesRegex((StoreError, OSError), told):
            loading.load(str(self.store), mailboxes.Mailboxes(str(path)), jobs=1)
        self.assertEqual(Store.check(self.store).documents, 1)
        self.assertEqual(self.units(), before)
        self.assert_found({"erst": [1]})

    def setUp(self):
        super().setUp()
        self.loaded(1, "load-mbox", self.write("first", mbox(mail("erst"))))

    def test_a_limit_of_the_system(self):
        script = f'ulimit -f 100; "$@" {self.box()}'  # As many blocks of 512 or 1,024 bytes.
        ran = subprocess.run(["sh", "-c", script, "sh", *RUBEWOLA, "load-mbox", self.store],
                             capture_output=True, text=True, check=False)
        self.assertEqual(ran.returncode, 2)
        self.assertRegex(ran.stderr, rf"{self.store}: [\d,]+ bytes are wanted, and no file may have more")
        self.assertNotIn("Traceback", ran.stderr)
        self.assertEqual((Store.check(self.store).documents, self.units()), (1, LEAST))
        self.loaded(MAILS, "load-mbox", self.box())
        self.assertEqual(Store.check(self.store).documents, MAILS + 1)

    def test_a_disk_that_is_full(self):
        program = os.environ["RUBEWOLA_PROGRAM"]
        script = self.write("program", '#!/bin/sh\nif [ "$1" = grow ]; then echo "pk_find: disk" >&2; '
                                       f'exit 1; fi\nexec {program} "$@"\n')
        script.chmod(0o755)
        with mock.patch.dict(os.environ, RUBEWOLA_PROGRAM=str(script)), \
                mock.patch.object(store, "LAST_TRY", 0), mock.patch("os.statvfs") as told:
            told.return_value = mock.Mock(f_bavail=0, f_frsize=512, f_flag=0)
            self.refused(f"^{self.store}: No space left on the disk: what was committed stays",
                         path=self.box())

    @unittest.skipUnless(HAS_MOUNTS, "wants `unshare -Urm`, to mount a disk of its own")
    def test_a_disk_of_its_own_that_is_full(self):
        (self.folder / "disk").mkdir()
        rubewola = shlex.join(RUBEWOLA)
        script = f"""mount -t tmpfs -o size=300k none disk && cp --sparse=always s disk
            head -c 1000000 /dev/zero > disk/rest
            {rubewola} load-mbox disk/s {self.box()}; echo status $?; {rubewola} check disk/s
            rm disk/rest; {rubewola} load-mbox disk/s box; echo status $?; {rubewola} check disk/s"""
        ran = subprocess.run(["unshare", "-Urm", "sh", "-c", script], cwd=self.folder, text=True,
                             capture_output=True, check=False)
        self.assertEqual(ran.stdout, "status 2\nok 1 documents next 2 segments 1\n"
                                     f"status 0\nok {MAILS + 1} documents next {MAILS + 2} segments 2\n", ran.stderr)
        self.assertRegex(ran.stderr, rf"rubewola: {self.folder}/disk/s: No space left on the disk: what")

    def test_the_most_units(self):
        with mock.patch.object(commits, "MOST_UNITS", LEAST):
            self.refused(f"^{self.store} has 64 units, and no store may have more", path=self.box())
        with mock.patch.object(commits, "MOST_UNITS", 4 * LEAST), \
                self.assertRaisesRegex(StoreError, "has 256 units, and no store may have more"):
            larger = self.box("larger", 4 * MAILS)
            loading.load(str(self.store), mailboxes.Mailboxes(str(larger)), jobs=1)
        self.assertEqual(self.units(), 4 * LEAST)


class Commands(Grown):
    """`rubewola grow`, and from Python."""

    def test_units(self):
        for words, told, status in [
                ((), r"\Agrown to 128 units\n\Z", 0), (("--units", "128"), r"\Ahas 128 units\n\Z", 0),
                (("--units=200",), r"\Agrown to 200 units\n\Z", 0),
                (("--units", "128"), rf"\Arubewola: {self.store}: shorter \(it has more units\)\n", 2),
                ((), r"\Agrown to 400 units\n\Z", 0), (("--units", "63"), "is from 64 to", 2),
                (("--units", "2147483649"), "is from 64 to 2,147,483,648", 2),
                (("--units", "x"), "wants a number", 2), (("x",), "usage: rubewola grow", 2)]:
            self.run_line(told, "grow", *words, status=status)
        self.assertEqual(self.units(), 400)
        self.assertEqual(stat.S_IMODE(self.store.stat().st_mode), 0o600)
        self.assertEqual(commands.candidates(["gr"]), ["grow"])
        self.assertIn("--units", commands.candidates(["grow", "--"]))
        self.store.unlink()
        self.run_line("No such file|missing", "grow", status=2)
        self.run_line("missing", "grow", "--units", "64", status=2)

    def test_a_growth_that_was_broken_off(self):
        os.truncate(self.store, 3 * LEAST * 512 + 7)
        with Store(self.store) as session:
            session.add("x" * 20_000)
            self.assertRaisesRegex(Full, "`rubewola grow` gives a store more", session.commit)
        self.run_line(r"\Agrown to 192 units\n\Z", "grow")
        os.truncate(self.store, 4 * LEAST * 512)
        ran = self.run_line("(?m)^loaded 1 ", "load-log", self.write("log", "fuell " * 15_000 + "\n"))
        self.assertEqual(told_units(ran.stderr), [256])

    def test_a_store_that_another_program_has(self):
        with Store(self.store):
            with self.assertRaisesRegex(Failed, f"{self.store}: in use"):
                Store.grow(self.store, 128)
        self.assertTrue(Store.grow(self.store, 128))
        self.assertFalse(Store.grow(self.store, 128))

    def test_another_program_has_grown_it(self):
        Store.grow(self.store, 256)
        self.assertEqual(commits.grow(self.store, LEAST), 0)
        self.assertEqual(commits.grow(self.store, 256), 512)
        with mock.patch.object(commits, "units_of", side_effect=[256, 512]):  # It grew just now.
            self.assertEqual(commits.grow(self.store, 256), 0)
        with mock.patch.object(commits, "units_of", return_value=128):
            self.assertEqual(commits.grow(self.store, 128), 0)
        self.assertEqual(self.units(), 512)

    def test_a_first_size_takes_no_room(self):
        log = self.write("log", "eins\n")
        self.store.unlink()
        loading.load(str(self.store), Logs(str(log)), jobs=1)
        self.assertEqual(self.store.stat().st_size, 268_435_456)
        self.assertLess(self.store.stat().st_blocks * 512, 1_000_000)
