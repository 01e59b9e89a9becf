"""Several programs with one store: searches beside a load, two loaders, and what a kill leaves."""

import contextlib
import json
import os
import re
import signal
import subprocess

from rubewola import Store

from support import LONG, RUBEWOLA, Stores, mail, mbox, processes_of

MAILS = 9_000
FEW = 1_500  # Beside searches, which wait for nobody and leave little of a processor.
PROGRESS = re.compile(r"rubewola: [\d,]+ loaded  \d+%  \d+\.\d MB/s  \d+:\d\d left")


class Sharing(Stores):
    """A store is held while it is used, and not longer."""

    def box(self, name="box", first=0, count=MAILS):
        mails = (mail(f"wort{number} gleich " + f"fuell{number % 50} " * 30,
                      Message_ID=f"<{number}@x>") for number in range(first, first + count))
        return self.write(name, mbox(*mails))

    def test_eight_searches_beside_a_load(self):
        box, rounds = self.box(count=FEW), []
        Store.create(self.store, 131_072).close()
        loader = self.start("load-mbox", "--jobs", "2", box)
        while loader.poll() is None or not rounds:
            running = [self.start("search", "--count", "gleich") for _ in range(8)]
            ends = [(*one.communicate(timeout=LONG), one.returncode) for one in running]
            for told, errors, status in ends:
                self.assertEqual(status, 0 if int(told) else 1, errors)
            rounds.append([int(told) for told, *_ in ends])
        self.assertEqual(loader.wait(), 0, loader.communicate())
        for before, after in zip(rounds, rounds[1:]):
            self.assertGreaterEqual(min(after), max(before))
        self.assertEqual(len(self.found("gleich")), FEW)

    def test_a_reader_who_takes_his_time_holds_no_store(self):
        with Store.create(self.store, 4_096) as store:
            list(store.add_all(["wort " * 100] * 1_000))
            store.commit()
        search = self.start("search", "--format", "json", "wort")
        # What is printed is more than a pipe holds, so the search waits for its reader.
        self.assertEqual(json.loads(search.stdout.readline())["number"], 1)
        with Store(self.store) as store:
            self.assertEqual(store.count().live, 1_000)
        self.assertIsNone(search.poll())
        self.assertEqual(len(search.stdout.readlines()), 999)
        search.communicate()

    def both(self, *commands):
        """Two loaders at once, and what they say."""
        running = [self.start(*words) for words in commands]
        ends = [(*one.communicate(timeout=LONG), one.returncode) for one in running]
        for told, errors, status in ends:
            # On a busy machine one may have to wait long enough to say so.
            errors = errors.replace("rubewola: the store is in use; waiting\n", "", 1)
            lines = [line for line in errors.splitlines() if not PROGRESS.fullmatch(line)]
            self.assertEqual((told, len(lines)), ("", 1), errors)
            self.assertEqual(status, 0 if lines[0].startswith("loaded ") else 2)
            if status:
                self.assertIn("run it again", lines[0])
        return ends

    def test_two_loaders_of_the_same_mails(self):
        box = self.box()
        self.both(["load-mbox", "--jobs", "2", box], ["load-mbox", "--jobs", "1", box])
        self.loaded(0, "load-mbox", box)
        self.assertEqual(len(self.found("gleich")), MAILS)

    def test_two_loaders_of_maildirs_that_overlap(self):
        for number in range(2_000):
            self.write(f"m/a{number % 4}/cur/{number}.M1.h:2,S", mail(f"wort{number} gleich"))
        tops = [self.folder / f"m/a{number}" for number in range(4)]
        self.both(["load-maildir", *tops[:3]], ["load-maildir", *tops[1:]])
        self.loaded(0, "load-maildir", *tops)
        self.assertEqual(len(self.found("gleich")), 2_000)

    def test_two_loaders_of_one_log(self):
        rows = [f"zeile{number}" for number in range(20_000)]
        log = self.write("log", "\n".join(rows) + "\n")
        self.both(["load-log", "--jobs", "2", log], ["load-log", "--jobs", "1", log])
        self.run_line("(?m)^loaded ", "load-log", log)
        self.assertEqual(list(self.texts().values()), rows)

    def test_two_logs_in_one_store(self):
        logs = [self.write(f"log{at}", "".join(f"l{at} zeile{number}\n" for number in range(9_000)))
                for at in range(2)]
        ends = self.both(*(["load-log", log] for log in logs))
        self.assertEqual([status for *_, status in ends], [0, 0])
        self.assert_found({"l0 zeile8999": self.found("l0")[-1:]})
        self.assertEqual([len(self.found(word)) for word in ("l0", "l1")], [9_000, 9_000])

    def test_a_line_a_batch_where_no_terminal_is(self):
        told = self.run_line("loaded 9000 ", "load-mbox", self.box()).stderr.splitlines()
        self.assertEqual([bool(PROGRESS.fullmatch(line)) for line in told], [True, True, False])
        self.assertIn("rubewola: 4,096 loaded  ", told[0])

    def test_a_killed_loader_goes_on_and_leaves_no_process(self):
        box = self.box()
        Store.create(self.store, 131_072).close()
        loader = subprocess.Popen([*RUBEWOLA, "load-mbox", "--jobs", "3", self.store, box],
                                  start_new_session=True, stderr=subprocess.PIPE)
        empty = self.store.stat().st_blocks
        self.wait_for(lambda: self.store.stat().st_blocks > empty or loader.poll() is not None)
        self.assertGreater(len(processes_of(loader.pid)), 1)
        loader.kill()
        loader.communicate()
        self.wait_for(lambda: not processes_of(loader.pid))
        with Store(self.store, wait=LONG) as store:
            left = store.count().live
        self.assertTrue(0 < left < MAILS)
        self.loaded(MAILS - left, "load-mbox", box)
        with Store(self.store) as store:
            self.assertEqual([len(store.find(f"wort{number}")) for number in range(0, MAILS, 500)],
                             [1] * (MAILS // 500))

    def stopped(self, box, stop):
        """A loader that was stopped in its midst, with what it told. One that was done by then is
        started again, on a new store."""
        for _ in range(20):
            loader = self.start("load-mbox", "--jobs", "2", box)
            self.wait_for(lambda: len(processes_of(loader.pid)) > 2 or loader.poll() is not None)
            with contextlib.suppress(ProcessLookupError):
                stop(loader.pid)
            told, errors = loader.communicate(timeout=LONG)
            if loader.returncode != 0:
                return loader, told, errors
            self.store.unlink()
        return self.fail("each loader was done before it was stopped")

    def test_an_interrupt_ends_all(self):
        box = self.box()
        loader, told, errors = self.stopped(box, lambda pid: os.killpg(pid, signal.SIGINT))
        self.assertEqual((told, loader.returncode), ("", 130), errors)
        self.assertNotIn("Traceback", errors)
        self.assertEqual(processes_of(loader.pid), [])
        self.run_line("(?m)^loaded ", "load-mbox", box)
        self.assertEqual(len(self.found("gleich")), MAILS)

    def test_a_load_goes_on_where_a_process_is_ended(self):
        loader = self.start("load-mbox", "--jobs", "2", self.box())
        self.wait_for(lambda: len(processes_of(loader.pid)) > 2 or loader.poll() is not None)
        for other in sorted(set(processes_of(loader.pid)) - {loader.pid})[-1:]:
            os.kill(other, signal.SIGKILL)
        _, errors = loader.communicate(timeout=LONG)
        self.assertEqual(loader.returncode, 0, errors)
        self.assertNotIn("Traceback", errors)
        self.assertEqual(len(self.found("gleich")), MAILS)
        self.assertEqual(processes_of(loader.pid), [])
