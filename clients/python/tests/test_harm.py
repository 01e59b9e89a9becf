"""What must not do harm: inputs that can't be read or take too long, texts from Python, messages."""

import gzip
import os
import resource
import signal
import stat
import subprocess
import sys
import unittest
from datetime import date
from functools import partial
from unittest import mock

from rubewola import (Failed, Full, InUse, Store, decoding, loading, logs, mailboxes, maildirs,
                      mails, mime, queries, sources, terminal)
from rubewola.marks import BEGIN, END, Marks
from rubewola.words import SIGN

from support import LONG, RUBEWOLA, Stores, mail, mbox


class Limits(Stores):
    """A document that takes too much is stored by its head, and told."""

    def box(self):
        return self.write("box", mbox(mail("eins", Subject="frueh"), mail("zaeh", Subject="dauert"),
                                      mail("drei", Subject="spaet")))

    def test_a_mail_that_takes_too_long(self):
        def read(raw, whole=mime.read):
            while b"zaeh" in raw:
                pass
            return whole(raw)
        with mock.patch.object(mails, "read", read), mock.patch.object(decoding, "SECONDS", 0.3):
            done = loading.load(str(self.store), mailboxes.Mailboxes(str(self.box())), jobs=1)
        self.assertEqual(str(done), "3 documents (1 slow)")
        self.assert_found({"subject:dauert zaeh": [2], "eins OR drei": [1, 3]})
        self.assertIn("[not read: too slow]", self.texts()[2])
        self.loaded(0, "load-mbox", self.folder / "box")

    def test_a_mail_that_takes_too_much_memory(self):
        def read(raw, whole=mime.read):
            if b"zaeh" in raw:
                raise MemoryError
            return whole(raw)
        with mock.patch.object(mails, "read", read):
            done = loading.load(str(self.store), mailboxes.Mailboxes(str(self.box())), jobs=1)
        self.assertEqual((done.documents, done.slow), (3, 1))

    def test_the_memory_of_a_process_that_decodes(self):
        def read(raw, whole=mime.read):
            held = []
            while b"zaeh" in raw:
                held.append(b"%09d" % len(held) * 100_000)
            return whole(raw)
        with mock.patch.object(mails, "read", read), mock.patch.object(decoding, "AHEAD", 1), \
                mock.patch.object(sources, "CHUNK_ITEMS", 1), \
                mock.patch.object(decoding, "MEMORY", 100_000_000):
            done = loading.load(str(self.store), mailboxes.Mailboxes(str(self.box())), jobs=2)
        self.assertEqual(str(done), "3 documents (1 slow)")

    def test_the_memory_of_a_load_that_starts_no_process(self):
        def read(raw, whole=mime.read):
            held = []
            while b"zaeh" in raw and len(held) < 400:
                held.append(b"%09d" % len(held) * 100_000)
            return whole(raw)
        before = resource.getrlimit(resource.RLIMIT_AS)
        with mock.patch.object(mails, "read", read), \
                mock.patch.object(decoding, "MEMORY", 100_000_000):
            done = loading.load(str(self.store), mailboxes.Mailboxes(str(self.box())), jobs=1)
        self.assertEqual(str(done), "3 documents (1 slow)")
        self.assertEqual(resource.getrlimit(resource.RLIMIT_AS), before)

    def test_what_is_between_two_documents_takes_no_time_of_theirs(self):
        mails.entry("mbox", mail("eins").encode(), [], "x")
        self.assertEqual(decoding._CLOCK.left, float("inf"))
        logs.entry("log", b"eins", logs._parsed, date.max, [], "x", True)
        self.assertEqual(decoding._CLOCK.left, float("inf"))

    def ended(self, read, jobs=2):
        """What a load did of a box, each mail by itself, whose processes may be ended."""
        with mock.patch.object(mails, "read", read), mock.patch.object(sources, "CHUNK_ITEMS", 1), \
                mock.patch.object(decoding, "SECONDS", 0.3), mock.patch.object(decoding, "GRACE", 0.2):
            return loading.load(str(self.store), mailboxes.Mailboxes(str(self.box())), jobs=jobs)

    def test_a_mail_in_which_a_library_hangs(self):
        def read(raw, whole=mime.read):
            # It heeds no signal, as no function does that is written in C and takes its time.
            return sum(range(10**12)) if b"zaeh" in raw else whole(raw)
        for jobs in (1, 2):
            self.assertEqual(str(self.ended(read, jobs)), "3 documents (1 slow)")
            self.assert_found({"subject:dauert zaeh": [2], "eins OR drei": [1, 3]})
            self.assertIn("[not read: too slow]", self.texts()[2])
            self.store.unlink()

    def test_a_mail_that_ends_its_process(self):
        def read(raw, whole=mime.read, words=(b"zaeh",)):
            if any(word in raw for word in words):
                os.kill(os.getpid(), signal.SIGKILL)  # As the system does where memory is short.
            return whole(raw)
        self.assertEqual(str(self.ended(read)), "3 documents (1 slow)")
        self.assert_found({"subject:dauert zaeh": [2], "eins OR drei": [1, 3]})
        self.store.unlink()
        # Nor can its head be read.
        self.assertEqual(str(self.ended(partial(read, words=(b"dauert",)))), "3 documents (1 slow)")
        self.assert_found({"dauert OR zaeh": [], "eins OR drei": [1, 3]})
        self.loaded(0, "load-mbox", self.folder / "box")

    def test_a_process_that_is_ended_before_it_has_read_its_next_task(self):
        # What writes the task would wait for ever for a reader, and this program for what writes.
        script = """
import os, signal, sys, time
from rubewola import loading, mailboxes, mails, sources
def read(raw, whole=mails.read):
    if b"zaeh" in raw:
        time.sleep(1)
        os.kill(os.getpid(), signal.SIGKILL)
    return whole(raw)
mails.read, sources.CHUNK_ITEMS = read, 1
print(loading.load(sys.argv[1], mailboxes.Mailboxes(sys.argv[2]), jobs=1))
"""
        box = self.write("box", mbox(mail("zaeh"), *(mail(f"lang{at} {'x' * 200_000}") for at in range(3))))
        ran = subprocess.run([sys.executable, "-c", script, self.store, box], check=False,
                             capture_output=True, encoding="utf-8", timeout=LONG)
        self.assertEqual((ran.stdout, ran.returncode), ("4 documents (1 slow)\n", 0), ran.stderr)

    def test_a_line_that_ends_its_process(self):
        def parsed(line, written, whole=logs._parsed):
            if b"zaeh" in line:
                os.kill(os.getpid(), signal.SIGKILL)
            return whole(line, written)
        log = self.write("log", "".join(f"zeile{at}{' zaeh' * (at in (3, 7))}\n" for at in range(9)))
        with mock.patch.object(logs, "_parsed", parsed), mock.patch.object(logs, "CHUNK_ITEMS", 5):
            done = loading.load(str(self.store), logs.Logs(str(log)), jobs=2)
        self.assertEqual(str(done), "9 documents (2 slow)")
        self.assert_found({"zaeh": [4, 8], "zeile8": [9]})
        self.loaded(0, "load-log", log)

    def test_a_line_that_takes_too_long(self):
        def parsed(line, written, whole=logs._parsed):
            while b"zaeh" in line:
                pass
            return whole(line, written)
        with mock.patch.object(logs, "_parsed", parsed), mock.patch.object(decoding, "SECONDS", 0.3):
            log = self.write("log", "eins\nzaeh\ndrei\n")
            done = loading.load(str(self.store), logs.Logs(str(log)), jobs=1)
        self.assertEqual(str(done), "3 documents (1 slow)")
        self.assert_found({"zaeh": [2], "drei": [3]})

    def test_a_packed_line_of_any_length(self):
        line = b"anfang " + b"x" * 8_000_000
        log = self.write("log.gz", gzip.compress(b"eins\n" + line + b"\nzwei\n"))
        with mock.patch.object(logs.Logs, "longest", 4_096):
            done = loading.load(str(self.store), logs.Logs(str(log)), jobs=1)
        self.assertEqual(done.documents, 3)
        self.assertLess(max(map(len, self.texts().values())), 5_000)
        self.assert_found({"anfang": [2], "zwei": [3]})
        self.assertEqual(loading.load(str(self.store), logs.Logs(str(log)), jobs=1).documents, 0)
        whole = self.write("log", b"neu\n" + b"y" * 3_000_000 + b"\nende\n")
        self.run_line(r"^loaded 3 documents \(1 cut\)", "load-log", whole)

    def test_a_mail_of_any_length(self):
        box = self.write("box", mbox(mail("eins"), mail("lang " * 9_000), mail("drei")))
        with mock.patch.object(mailboxes, "LONGEST_MAIL", 9_000), \
                mock.patch.object(mails, "LONGEST_MAIL", 9_000), \
                mock.patch.object(mailboxes, "_READ", 4_096):
            done = loading.load(str(self.store), mailboxes.Mailboxes(str(box)), jobs=1)
        self.assertEqual(str(done), "3 documents (1 cut)")
        self.assert_found({"drei": [3], "lang": [2]})


class NotReadable(Stores):
    """What can't be read is passed over."""

    def test_a_mail_that_cannot_be_read(self):
        self.write("m/cur/1000.a.h:2,S", mail("eins"))
        bad = self.folder / "m/cur/1001.b.h:2,S"
        bad.symlink_to("/proc/self/mem")  # Its first byte can be read by nobody.
        told = r"not read: .*1001\.b\.h:2,S: Input/output error\n(?s:.*)^loaded 1 documents \(1 not"
        self.run_line(rf"(?m){told} readable\)", "load-maildir", self.folder / "m")
        self.assert_found({"eins": [1]})
        bad.unlink()
        self.write("m/cur/1001.b.h:2,S", mail("zwei"))
        self.loaded(1, "load-maildir", self.folder / "m")
        bad.rename(bad.with_name("1002.c.h"))
        bad = bad.with_name("1003.d.h")
        bad.symlink_to("/proc/self/mem")
        bad.with_name("1002.c.h").unlink()
        (self.folder / "m/cur/1000.a.h:2,S").unlink()
        self.run_line("1 not readable", "load-maildir", self.folder / "m", status=2)

    def test_a_folder_that_cannot_be_read(self):
        path = self.write("m/cur/1000.a.h:2,S", mail("eins"))
        self.write("n/cur/1001.a.h:2,S", mail("zwei"))

        def refuse(one, *rest, whole=os.stat, **more):
            if str(one) == str(path):
                raise PermissionError(13, "Permission denied", str(one))
            return whole(one, *rest, **more)
        with mock.patch.object(maildirs.os, "stat", refuse):
            source = maildirs.Maildirs(str(self.folder / "m"), str(self.folder / "n"))
        done = loading.load(str(self.store), source, jobs=1, prune=True)
        self.assertEqual(str(done), "1 documents (1 not readable)")
        self.assertEqual(source.passed, [f"{path}: Permission denied"])

    def test_files_of_which_some_are_not_there(self):
        box = self.write("box", mbox(mail("eins")))
        none = self.folder / "none"
        self.run_line("(?s)not read: .*none: No such file.*1 not readable", "load-mbox", none, box)
        self.run_line("1 not readable", "load-mbox", none, status=2)
        self.assert_found({"eins": [1]})
        self.run_line("1 not readable", "load-maildir", none, status=2)
        self.run_line("1 not readable", "load-log", self.folder, status=2)

    def test_a_packed_file_without_its_end(self):
        packed = gzip.compress(b"".join(b"zeile%d\n" % at for at in range(50_000)))
        self.run_line("(?s)its end is missing.*1 not readable", "load-log",
                      self.write("log.gz", packed[:-9]))
        self.assert_found({"zeile7": [8]})

    def test_an_empty_message_id(self):
        raw = b"Message-ID:\nSubject: <x@y>\n\neins\n"
        self.assertEqual(mails.identity(raw)[0], b"")
        self.assertEqual(mails.identity(b"Message-ID:\n <a@b>\n\nx\n")[0], b"a@b")

    def test_json_with_a_byte_order_mark(self):
        log = self.write("log", b'\xef\xbb\xbf{"level": "error"}\n{"level": "info"}\n')
        self.run_line("^loaded 2 documents in", "load-json", log)
        self.assert_found({"level:error": [1]})


class FromPython(Stores):
    """Stores from Python."""

    def test_no_text_adds_a_command(self):
        with Store.create(self.store, 64) as store:
            self.assertEqual(list(store.add_all([b"a\nadd b", "c\nadd d", b"e"])), [1, 2, 3])
            self.assertEqual(list(store.show_all([1, 2, 3])), ["a\nadd b", "c\nadd d", "e"])
            self.assertEqual(store.count().live, 3)

    def test_a_store_is_for_its_owner(self):
        Store.create(self.store, 64).close()
        self.assertEqual(stat.S_IMODE(self.store.stat().st_mode), 0o600)
        self.store.unlink()
        self.loaded(1, "load-mbox", self.write("box", mbox(mail("x"))))
        self.assertEqual(stat.S_IMODE(self.store.stat().st_mode), 0o600)

    def test_the_first_size_of_a_store(self):
        self.loaded(1, "load-mbox", self.write("box", mbox(mail("x"))))
        self.assertEqual(self.store.stat().st_size, 268_435_456)
        text = "".join(f"zeile{at} {'x' * 90}\n" for at in range(6))
        one = self.write("log.gz", gzip.compress(text.encode()))
        self.assertEqual(logs.Logs(str(one)).room, one.stat().st_size * 10)

    def test_counts_read_no_numbers(self):
        with Store.create(self.store, 4_096) as store:
            list(store.add_all(f"wort {SIGN}log" for _ in range(4_000)))
            with mock.patch.object(Store, "find_all", side_effect=AssertionError):
                self.assertEqual(list(store.counts(["wort", "nichts"])), [4_000, 0])
                self.assertTrue(store.has("wort"))
                self.assertFalse(sources.has_kind(store, "mbox"))
            self.assertRaisesRegex(Exception, "a AND|unexpected", list, store.counts(["a AND"]))
            self.assertEqual(store.count().live, 4_000)

    def test_messages_name_the_store(self):
        self.assertRaisesRegex(Exception, f"{self.store}: missing", Store, self.store)
        with Store.create(self.store, 64) as store:
            with self.assertRaisesRegex(InUse, f"{self.store}: in use"):
                Store(self.store)
            store.add("x" * 40_000)
            self.assertRaises(Full, store.commit)
        with mock.patch("os.statvfs") as told:
            told.return_value = mock.Mock(f_bavail=0, f_frsize=512, f_flag=0)
            error = Failed("disk").of(str(self.store))
        self.assertRegex(str(error), f"{self.store}: No space left on the disk")


class Lines(Stores):
    """Command lines and the prompt."""

    def setUp(self):
        super().setUp()
        Store.create(self.store, 256).close()

    def shell(self, typed, **settings):
        return subprocess.run([*RUBEWOLA, "shell", self.store], input=typed, check=False,
                              capture_output=True, timeout=LONG, **settings)

    def test_a_line_that_is_no_text(self):
        ran = self.shell(b"add eins\nadd \xff\nadd zwei\nquit\n")
        self.assertIn(b"refused not text", ran.stdout)
        self.assertEqual(ran.returncode, 0)
        self.assert_found({"eins": [1], "zwei": [2]})

    def test_what_is_not_committed_is_told(self):
        # What runs in the background is started with interrupts ignored.
        with subprocess.Popen([*RUBEWOLA, "shell", self.store], stdin=subprocess.PIPE,
                              stdout=subprocess.PIPE, stderr=subprocess.PIPE,
                              preexec_fn=lambda: signal.signal(signal.SIGINT, signal.SIG_DFL)) as other:
            other.stdin.write(b"add eins\nadd zwei\ncommit\nadd drei\ndelete 1\n")
            other.stdin.flush()
            for _ in range(6):
                other.stdout.readline()
            other.send_signal(signal.SIGINT)
            told = other.stderr.read().decode()
        self.assertIn("not committed, and so lost: 1 added and 1 deleted documents", told)

    def test_a_home_that_cannot_be_written(self):
        terminal, other = os.openpty()
        with subprocess.Popen([*RUBEWOLA, "shell", self.store], stdin=other, stdout=subprocess.DEVNULL,
                              stderr=subprocess.PIPE, env={**os.environ, "HOME": "/proc/none"}) as ran:
            os.close(other)
            os.write(terminal, b"add eins\nquit\n")
            told = ran.stderr.read().decode()
        os.close(terminal)
        self.assertEqual((ran.returncode, told), (0, ""))
        self.assert_found({"eins": [1]})

    def test_numbers_of_thousands_of_digits(self):
        nines = "9" * 5_000
        for words in (["search", "--limit", nines, "x"], ["show", nines], ["show", "99999999999"],
                      ["create", "--size", nines], ["serve", "--port", nines], ["delete", nines]):
            ran = self.ran(*words)
            self.assertNotIn("Traceback", ran.stderr, words[0])
            self.assertIn(ran.returncode, (1, 2), words[0])
        self.assertIn("no such document", self.ran("show", "99999999999").stderr)

    def test_standard_input_that_is_closed(self):
        for command, words in (("shell", ""), ("load-log", "-"), ("load-mbox", "-")):
            script = f'"$@" {words} <&-'
            ran = subprocess.run(["sh", "-c", script, "sh", *RUBEWOLA, command, self.store],
                                 capture_output=True, text=True, check=False)
            self.assertNotIn("Traceback", ran.stderr, command)
            self.assertEqual(ran.returncode, 2, command)
            self.assertIn("standard input is closed", ran.stderr)

    def test_a_size_limit_leaves_no_file(self):
        other = self.folder / "t"
        script = f'ulimit -f 64; "$@" --size 1M {other}'
        ran = subprocess.run(["sh", "-c", script, "sh", *RUBEWOLA, "create"], check=False,
                             capture_output=True, text=True)
        self.assertEqual(ran.returncode, 2)
        self.assertFalse(other.exists())
        self.assertRegex(ran.stderr, "no file may have more than|ended")

    def test_reasons_in_plain_words(self):
        for query, told in (("a )", "a closing bracket without an opening one"),
                            ("(a OR )", "a word must come before this closing bracket"),
                            ("a AND", "the query ends where a word must come"),
                            ("a OR OR b", "a word must come before this OR"),
                            ("(a", "nothing closes this bracket"), ("--", "no word is here"),
                            ('a "b', "nothing closes this quotation mark"),
                            ("(" * 65 + "a", "64 brackets"), ("a " * 2_100, "4,096 bytes"),
                            ("x" * 100_000, "4,096 bytes|query too long"),
                            ("from:ada )", "a closing bracket without"),
                            ("w\udcff", "rubewola: the query is not text")):
            self.run_line(told, "search", "--", query, status=2)


class Shown(Stores):
    """What is marked."""

    def marked(self, query, text):
        read = queries.read(query, lambda _: True)
        return Marks.of(read).marked(text).replace(BEGIN, "[").replace(END, "]")

    def test_a_phrase_is_marked_where_it_stands(self):
        self.assertEqual(self.marked('"code freeze"', "code, then code freeze; freeze"),
                         "code, then [code freeze]; freeze")
        self.assertEqual(self.marked('"code freeze" code', "code code-freeze"),
                         "[code] [code-freeze]")
        self.assertEqual(self.marked('"ha ha"', "ha ha ha ho"), "[ha ha ha] ho")
        self.assertEqual(self.marked('"release" freez*', "Release freezes"), "[Release] [freezes]")

    def test_a_hit_in_a_field_shows_its_line(self):
        self.loaded(1, "load-mbox", self.write("box", mbox(mail(
            "text", From="Ada <a@x>", To="Chen <c@x>, Dora <d@x>", Subject="dora und andere"))))
        told = self.run_line("Ada", "search", "--context", "to:dora").stdout
        self.assertRegex(told, r"\n    To: Chen <c@x>, Dora <d@x>\n")
        query = queries.read("to:dora", lambda _: True)
        doc = {"number": 1, "text": "text", "date": "2010-05-14", "from": "Ada", "to": "Dora x",
               "cc": "", "subject": "dora", "attached": ""}
        lines = terminal.lines([doc], query, 80, True)
        self.assertEqual([line.replace(BEGIN, "[").replace(END, "]") for line in lines],
                         ["1: 2010-05-14  Ada  dora  1", "    To: [Dora] x"])


if __name__ == "__main__":
    unittest.main()
