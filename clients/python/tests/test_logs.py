"""Logs that live: they grow, are cut and rotated between loads, and end in the midst of a line."""

import bz2
import gzip
import lzma
import os
import random
import shutil
import time
import unittest
from datetime import date
from pathlib import Path
from unittest import mock

from rubewola import commits, loading, logs, stamps, store
from rubewola.store import Store

from support import Stores

WRITTEN = date(2026, 3, 2)


class Logs(Stores):
    """What a load makes of a log, whatever became of it since the last."""

    def setUp(self):
        super().setUp()
        self.log = self.folder / "log"

    def append(self, text):
        with open(self.log, "ab") as log:
            log.write(text if isinstance(text, bytes) else text.encode())

    def load(self, *words, **settings):
        return self.run_line("^|\nloaded ", "load-log", *(words or [self.log]), **settings).stderr

    def lines(self):
        return list(self.texts().values())

    def test_a_last_line_without_its_end_waits(self):
        self.append("eins\nzw")
        self.assertIn("waits for the next load", self.load())
        self.assertEqual(self.lines(), ["eins"])
        self.append("ei\n")
        self.load()
        self.assertEqual(self.lines(), ["eins", "zwei"])
        self.loaded(0, "load-log", self.log)
        self.append("dr")
        self.load()
        self.append("ei\nvier\n")
        self.load()
        self.assertEqual(self.lines(), ["eins", "zwei", "drei", "vier"])

    def test_a_log_of_nothing_yet(self):
        self.append("")
        self.loaded(0, "load-log", self.log)
        self.append("ei")
        self.loaded(0, "load-log", self.log)
        self.append("ns\n")
        self.loaded(1, "load-log", self.log)

    def test_a_first_line_that_comes_as_it_is_loaded(self):
        self.append("")
        source = logs.Logs(str(self.log))

        def begin(known, whole=source.begin):
            whole(known)
            self.append("eins\nzwei\n")
        with mock.patch.object(source, "begin", begin):
            self.assertEqual(loading.load(str(self.store), source, jobs=1).documents, 2)
        self.loaded(0, "load-log", self.log)

    def test_rotation_is_followed(self):
        self.append("a1\na2\n")
        self.load()
        self.append("a3\n")
        self.log.rename(self.folder / "log.1")
        self.append("b1\n")
        self.assertRegex(self.load(), "was rotated: .*log.1 is loaded first")
        self.assertEqual(self.lines(), ["a1", "a2", "a3", "b1"])
        self.loaded(0, "load-log", self.log)
        self.loaded(0, "load-log", self.folder / "log.1", self.log)

    def test_rotation_by_a_copy_and_packing(self):
        self.append("a1\n")
        self.load()
        self.append("a2\n")
        self.write("log-20260301.gz", gzip.compress(self.log.read_bytes()))
        os.truncate(self.log, 0)
        self.append("b1\n")
        self.load()
        self.assertEqual(self.lines(), ["a1", "a2", "b1"])

    def test_two_rotations_between_loads(self):
        self.append("a1\n")
        self.load()
        self.append("a2\n")
        for number, text in ((2, "b1\nb2\n"), (1, "c1\n")):
            path = self.log.rename(self.folder / f"log.{number}")
            os.utime(path, (1_000_000 - number,) * 2)
            self.append(text)
        self.load()
        self.assertEqual(self.lines(), ["a1", "a2", "b1", "b2", "c1"])

    def test_a_rotation_that_left_nothing_is_said(self):
        self.append("a1\n")
        self.load()
        self.log.write_text("b1\n")
        self.assertIn("is not what it was at its last load", self.load())
        self.assertEqual(self.lines(), ["a1", "b1"])
        self.assertNotIn("is not what it was", self.load())

    def test_a_log_that_was_made_shorter(self):
        self.append("a1\n")
        self.load()
        self.append("a2\na3\n")
        self.load()
        os.truncate(self.log, 6)
        self.append("b1\n")
        self.assertIn("may be there twice", self.load())
        self.assertEqual(self.lines(), ["a1", "a2", "a3", "a2", "b1"])
        self.loaded(0, "load-log", self.log)

    def test_rotated_logs_that_begin_alike(self):
        self.append("#Fields: time host\n")
        self.load()
        self.append("a1\n")
        self.load()
        self.append("a2\n")
        self.log.rename(self.folder / "log.1")
        self.append("#Fields: time host\nb1\n")
        self.assertIn("log.1 is loaded first", self.load())
        self.assertEqual(self.lines()[1:], ["a1", "a2", "b1"])

    def test_several_logs_in_one_store(self):
        self.append("a1\n")
        other = self.write("other", "x1\n")
        self.load(self.log, other)
        self.append("a2\n")
        self.load(other, self.log)
        other.write_text("x1\nx2\n")
        self.load(other)
        self.assertEqual(self.lines(), ["a1", "x1", "a2", "x2"])

    def test_logs_that_begin_alike(self):
        head = "#Software: server\n#Fields: time host\n"
        self.append(head + "a1\n")
        self.load()
        other = self.write("other", head + "x1\nx2\n")
        self.load(other)
        self.append("a2\n")
        self.load(self.log, other)
        self.assertEqual(self.lines()[-4:], ["a1", *head.splitlines(), "x1", "x2", "a2"][-4:])
        self.assert_found({"a1 OR a2 OR x1 OR x2": [3, 6, 7, 8]})

    def test_a_deleted_line_stops_no_later_load(self):
        self.append("eins\nzwei\n")
        self.load()
        self.run_line("deleted 2", "shell", input="delete 2\n")
        self.append("drei\n")
        self.load()
        self.assertEqual(self.lines(), ["eins", "drei"])

    def test_packed_logs(self):
        for name, pack in (("a.gz", gzip.compress), ("b.xz", lzma.compress), ("c", bz2.compress)):
            # A file that grows no more has a last line without its end.
            self.load(self.write(name, pack(f"in{name[0]} zeile\nende{name[0]}".encode())))
        self.assertEqual(self.lines(), ["ina zeile", "endea", "inb zeile", "endeb", "inc zeile",
                                        "endec"])
        cut = self.write("d.gz", gzip.compress(b"x\n" * 9)[:-9])
        self.run_line("1 not readable.*\n.*|its end is missing", "load-log", cut)

    def test_standard_input(self):
        self.load("-", input="eins\nzwei")
        self.load("-", input="eins\nzwei\ndrei\n")
        self.assertEqual(self.lines(), ["eins", "zwei", "drei"])
        self.load("-", self.write("log", "vier\n"), input="")
        self.assertEqual(self.lines(), ["eins", "zwei", "drei", "vier"])

    def test_a_pipe(self):
        pipe = self.folder / "pipe"
        os.mkfifo(pipe)
        loader = self.start("load-log", pipe)
        with open(pipe, "wb") as end:
            end.write(b"eins\nzwei\n")
        loader.communicate()
        self.assertEqual((loader.returncode, self.lines()), (0, ["eins", "zwei"]))

    def test_what_is_no_log(self):
        for name, data, told in [
                ("x.tar", b"\0" * 257 + b"ustar" + b"\0" * 300, "an archive"),
                ("x.zst", b"\x28\xb5\x2f\xfdxyz", "packed by zstd"),
                ("x.zip", b"PK\x03\x04xyz", "a zip archive"),
                ("x", b"\xa7" + b"\0" * 1_023 + b"PKSRCH02" + b"\0" * 99, "a store"),
                ("x.journal", b"LPKSHHRH", "journalctl -o json"),
                ("x.txt", "\ufefftext\n".encode("utf-16"), "UTF-16"),
                ("x.bin", random.Random(1).randbytes(9_999), "no text")]:
            self.run_line(told, "load-log", self.write(name, data), status=2)
        self.run_line("is a folder|Is a directory", "load-log", self.folder, status=2)
        self.run_line("No such file", "load-log", self.folder / "none", status=2)
        self.assertFalse(self.store.exists())
        # A log that was cut in place begins with what was never written.
        self.load(self.write("holes", b"\0" * 9_999 + b"wort\n"))
        self.assert_found({"wort": [1]})

    def test_joined_words_and_bytes_of_all_sorts(self):
        lines = b"installed openssl:amd64 3.0.15\n\nfr\xfchling foo_bar\v\r\n"
        self.load(self.write("log", lines))
        self.load(self.write("log", lines + b"x.y\n"), "--no-parts")
        self.assert_found({"openssl": [1], "bar": [3], "frühling": [3], "x": [], "x.y": [4]})

    def test_a_line_more_asks_as_little_of_a_large_log(self):
        asked = {}
        with mock.patch.object(logs, "CHUNK_ITEMS", 1):  # So that each line has marks.
            for count in (20, 400):
                self.append("".join(f"{count} zeile{at}\n" for at in range(count)))
                self.load()
                self.append("ende\n")
                with mock.patch.object(store, "_line", side_effect=store._line) as line, \
                        mock.patch.object(Store, "find", autospec=True, side_effect=Store.find) as find:
                    self.loaded(1, "load-log", self.log)
                asked[count] = line.call_count
                self.assertNotIn(commits.COMMIT, [call.args[1] for call in find.call_args_list])
        self.assertEqual(asked[20], asked[400])
        self.log.write_text("neu\n")
        self.loaded(1, "load-log", self.log)
        self.assertEqual(len(self.lines()), 423)

    def test_marks_beyond_the_newest(self):
        self.append("#Fields: time\n")
        head = self.log.read_bytes()
        with mock.patch.object(logs, "CHUNK_ITEMS", 1):
            other = self.write("other", head + b"".join(b"x%d\n" % at for at in range(99)))
            self.append("a1\na2\n")
            self.load()
            self.load(other)
            self.append("a3\n")
            self.loaded(1, "load-log", self.log)
            self.loaded(0, "load-log", self.log, other)

    def test_many_lines_by_two_processes(self):
        rows = [f"{number} wort{number % 7} " + "x" * (number % 90) for number in range(20_000)]
        self.append("\n".join(rows) + "\n")
        self.loaded(20_000, "load-log", "--jobs", "2", self.log)
        self.assertEqual(self.lines(), rows)
        self.append("ende\n")
        self.loaded(1, "load-log", "--jobs", "2", self.log)

    def test_a_killed_load_goes_on(self):
        rows = [f"{number} zeile" for number in range(30_000)]
        self.append("\n".join(rows) + "\n")
        Store.create(self.store, 131_072).close()
        self.assertTrue(self.kill_in_midst("load-log", "--jobs", "2", self.log))
        self.load()
        self.assertEqual(self.lines(), rows)

    def test_a_store_of_an_earlier_client_goes_on(self):
        with Store.create(self.store, 256) as store:
            list(store.add_all(["eins", "zwei.drei\n\x1dzwei drei"]))
            store.commit()
        self.append("eins\nzwei.drei\nvier\n")
        self.assertIn("earlier client", self.load())
        self.loaded(0, "load-log", self.log)
        self.assert_found({"vier": [3], "eins": [1]})

    def test_a_log_that_lives(self):
        draw, written, count, loads = random.Random(7), [], 0, 0

        def load():
            self.load()
            # What waits has no line end yet.
            whole = "".join(written).rpartition("\n")[0].splitlines()
            self.assertEqual(self.lines(), whole)
        for _ in range(120):
            step = draw.random()
            if step < 0.6:
                count += 1
                text = f"zeile{count}" + draw.choice(["\n", "\n", "\n", ""])
                self.append(text)
                written.append(text)
            elif step < 0.75 and written and written[-1].endswith("\n") and self.log.exists():
                self.rotate(draw.random() < 0.5)
            elif self.log.exists() and self.log.stat().st_size:
                load()
                loads += 1
        self.append("ende\n")
        written.append("ende\n")
        load()
        self.assertGreater(loads, 10)

    def rotate(self, is_copied):
        """As `logrotate` does: older ones are packed and numbered on."""
        if self.log.stat().st_size == 0:
            return
        numbered = sorted((int(path.name.split(".")[1]), path)
                          for path in self.folder.glob("log.[0-9]*"))
        for number, path in reversed(numbered):
            packed = path.suffix == ".gz"
            new = self.folder / f"log.{number + 1}.gz"
            if packed:
                path.rename(new)
            else:
                stat = path.stat()
                new.write_bytes(gzip.compress(path.read_bytes()))
                os.utime(new, ns=(stat.st_atime_ns, stat.st_mtime_ns))
                path.unlink()
        if is_copied:
            shutil.copy2(self.log, self.folder / "log.1")
            os.truncate(self.log, 0)
        else:
            self.log.rename(self.folder / "log.1")
            self.log.touch()
        # The times of files have to tell which is older.
        os.utime(self.folder / "log.1", (time.time() - 1_000 + len(numbered),) * 2)


class Days(unittest.TestCase):
    """The day of a line's own stamp."""

    def test_stamps(self):
        for line, when in [
                ("2025-06-24 10:00:00 status installed", date(2025, 6, 24)),
                ("2026-10-01T00:00:19Z x", date(2026, 10, 1)), ("2025-06-24", date(2025, 6, 24)),
                ("[2025/06/24 10:00] x", date(2025, 6, 24)),
                ("20250624T100000Z x", date(2025, 6, 24)),
                ("Nov  6 11:15:56 host x", date(2025, 11, 6)),
                ("Mar  3 11:15:56 host x", date(2026, 3, 3)),
                ("Mar  4 11:15:56 host x", date(2025, 3, 4)),
                ("Feb 29 11:15:56 host x", date(2024, 2, 29)),
                ("<34>Oct 11 22:14:15 mymachine su: x", date(2025, 10, 11)),
                ("<34>1 2003-10-11T22:14:15.003Z mymachine", date(2003, 10, 11)),
                ("[Thu Nov 26 11:15:56.123 2009] [error]", date(2009, 11, 26)),
                ("1273879800 x", date(2010, 5, 14)), ("1273879800.123 x", date(2010, 5, 14)),
                ("[1273879800123] x", date(2010, 5, 14)),
                ("type=SYSCALL msg=audit(1364481363.243:24287): x", date(2013, 3, 28)),
                ('127.0.0.1 - - [10/Oct/2000:13:55:36 -0700] "GET /"', date(2000, 10, 10)),
                ("web_1  | 2025-06-24T10:00:00Z x", date(2025, 6, 24)),
                ("level=info time=2025-06-24T10:00:00Z x", date(2025, 6, 24)),
                ("no stamp 2025-06-24", None), ("2025-13-24 x", None), ("99999 x", None),
                ("12738798001273879800 x", None), ("May be", None), ("", None)]:
            with self.subTest(line):
                self.assertEqual(stamps.of_line(line, WRITTEN), when)

    def test_values(self):
        for value in ("2010-05-14T23:30:00Z", 1273879800, 1273879800123, "1273879800000000",
                      1273879800.5):
            with self.subTest(value):
                self.assertEqual(stamps.of_value(value), date(2010, 5, 14))
        for value in ("soon", None, 12, [], float("inf"), float("nan"), "inf"):
            with self.subTest(value):
                self.assertIsNone(stamps.of_value(value))

    def test_dates_of_mails(self):
        for text, told in [("Fri, 14 May 2010 23:30:00 -0600", "2010-05-14 23:30:00-06:00"),
                           ("2010-05-14T23:30:00Z", "2010-05-14 23:30:00+00:00"),
                           ("Fri, 31 Dec 1999 23:59:60 GMT", "1999-12-31 23:59:59+00:00"),
                           ("Fri, 14 May 2010 23:30:00 +9999", "2010-05-14 23:30:00"),
                           ("Fri May 14 23:30:00 2010", "2010-05-14 23:30:00")]:
            with self.subTest(text):
                self.assertEqual(str(stamps.of_date(text)), told)
        for text in ("", "never", "99 May 2010", "Fri, 14 Foo 2010 23:30:00 -0600"):
            self.assertIsNone(stamps.of_date(text))


class Dated(Stores):
    """`date:` of lines."""

    def test_lines_are_found_by_their_day(self):
        rows = ["2025-06-24 startup", "2025-06-25T01:00:00Z x", "no stamp",
                "Jun 26 01:00:00 host x"]
        log = self.write("log", "\n".join(rows) + "\n")
        os.utime(log, (1_772_400_000,) * 2)
        self.loaded(4, "load-log", log)
        self.assert_found({"date:2025-06-24": [1], "date:2025-06": [1, 2, 4],
                           "date:2025-06-26": [4],
                           "date:2025-06-25..": [2, 4], "date:..2025-06-24": [1],
                           "NOT date:2025": [3]})
        self.assertEqual(Path(log).stat().st_mtime, 1_772_400_000)
