"""Sessions with the built program: what goes out comes back, and refusals."""

import os
import shutil
import subprocess
import sys
import unittest
from unittest import mock

from rubewola import (Failed, Full, InUse, NoSuchDocument, QueryRefused, Refused, Store,
                      TooManySegments, commits, loading, logs)

from support import LONG, RUBEWOLA, TOP, Stores, mail, mbox

sys.path.append(str(TOP / "tools"))
import laid_out  # pylint: disable=wrong-import-position,wrong-import-order

NOBODY = 65_534


class Sessions(Stores):
    """A store from Python."""

    def test_every_class_of_code_points_comes_back(self):
        # Two planes have all classes, and spellings of one to four bytes.
        points = [*range(0xB), *range(0xC, 0xD800), *range(0xE000, 0x20000), 0x10FFFF]
        texts = ["".join(map(chr, points)), "", " ", "\\", "\\n", "a\\\\n\nb\n", "\r\n",
                 "x" * 1_048_576, "one\ntwo\vthree"]
        with Store.create(self.store, 16_384) as store:
            numbers = list(store.add_all(texts))
            store.commit()
            self.assertEqual(list(store.show_all(numbers)), texts[:-1] + ["one\ntwo\nthree"])
            self.assertEqual(store.find("one two three"), numbers[-1:])

    def test_refusals_have_their_fields(self):
        with Store.create(self.store, 64) as store:
            # The word stands in the text and in the dictionary: 80,051 bytes in all.
            store.add("x" * 40_000)
            for call, given, kind, fields in [
                    (store.find, "a AND --", QueryRefused, {"place": 6}),
                    (list, store.show_all([2] * 1_000), NoSuchDocument, {}),
                    (store.add, "x" * 1_048_577, Refused, {"reason": "text too long"}),
                    (store.add, "\ud800", UnicodeEncodeError, {}),
                    (list, store.add_all(["y", "x" * 1_048_577, "z"]), Refused, {}),
                    (store.ask, "commit", Full, {"need": 157, "largest": 30})]:
                with self.subTest(kind), self.assertRaises(kind) as caught:
                    call(given)
                self.assertLessEqual(fields.items(), vars(caught.exception).items())
            self.assertEqual(store.count().live, 3)
        self.assertRaisesRegex(Failed, "closed", store.count)
        self.assertRaisesRegex(Failed, "missing", Store, self.folder / "none")
        store.close()

    def test_room_is_made(self):
        large = " ".join(map(str, range(20_000)))
        with Store.create(self.store, 1_024) as store:
            number = store.add(large)
            store.commit()
            store.delete(number)
            store.commit()
            store.add(large)
            self.assertRaises(Full, store.commit)
            commits.commit(store)
            self.assertEqual(store.count(), (1, 3))

    def test_room_is_made_for_a_segment(self):
        laid_out.store_of(self.store, 4_096)
        with Store(self.store) as store:
            store.delete(4_096)
            store.commit()
            store.add("a")
            self.assertRaises(TooManySegments, store.commit)
            commits.commit(store)
            self.assertEqual(store.find("a"), [*range(1, 4_096), 4_097])

    def test_many_commands_on_their_way(self):
        with Store.create(self.store, 64) as store:
            store.add("red apple " * 50)
            self.assertEqual(sum(map(len, store.show_all([1] * 50_000))), 50_000 * 500)
            self.assertEqual(list(store.find_all(["red", "pear"] * 5_000)), [[1], []] * 5_000)
            self.assertEqual(list(store.add_all([b"pear"] * 4_000)), list(range(2, 4_002)))
            replies = store.ask_all(["count", "unknown", "count"])
            self.assertEqual(next(replies), "count 4001 next 4002")
            self.assertRaisesRegex(Failed, "busy", store.count)
            replies.close()
            replies = list(store.ask_all(["add " + "y" * 900_000, "show 1", "show 2"] * 4))
            self.assertEqual(len(replies[0]), len("added 4002"))

    def test_a_program_that_ends(self):
        with Store.create(self.store, 64) as store:
            store.add("kept")
            store.commit()
            store.add("lost")
            store._program.kill()
            self.assertRaises(Failed, store.count)
        with Store(self.store, wait=LONG) as store:
            self.assertEqual(store.count(), (1, 2))

    def test_a_store_in_use_and_a_file_that_is_refused(self):
        with Store.create(self.store, 64):
            self.assertRaises(InUse, Store, self.store)
            self.assertRaises(InUse, Store, self.store, 0.1)
        self.assertRaises(IsADirectoryError, Store, self.folder)
        self.assertRaises(FileNotFoundError, Store.create, self.folder / "no/s", 64)
        self.assertRaisesRegex(Failed, "exists", Store.create, self.store, 64)
        self.write("text", "no store\n")
        self.assertRaisesRegex(Failed, "the file is no store", Store, self.folder / "text")

    def test_a_check(self):
        with Store.create(self.store, 256) as store:
            for text in ("red apple", "green pear", "red pear"):
                store.add(text)
                store.commit()
            store.delete(2)
            store.commit()
            self.assertRaises(InUse, Store.check, self.store)
        self.assertEqual(Store.check(self.store), (2, 4, 3))
        self.assertRaisesRegex(Failed, "missing", Store.check, self.folder / "none")
        # A letter of a text, which then has another word.
        whole = self.store.read_bytes()
        self.store.write_bytes(whole.replace(b"green pear", b"groen pear"))
        self.assertRaisesRegex(Failed, "damaged", Store.check, self.store)

    def test_a_store_without_the_right_to_write(self):
        Store.create(self.store, 64).close()
        self.store.chmod(0o444)
        if not os.geteuid():  # Root may write everywhere: another user asks.
            self.folder.chmod(0o755)
            self.addCleanup(os.setresuid, 0, 0, 0)
            os.setresuid(NOBODY, NOBODY, 0)
        with self.assertRaises(PermissionError) as caught:
            Store(self.store)
        self.assertEqual(caught.exception.filename, str(self.store))


class Commands(Stores):
    """The command line."""

    def test_a_check_and_its_status(self):
        with Store.create(self.store, 256) as store:
            store.add("wort zahl")
            store.commit()
        ran = self.run_line("1 documents have no digest", "check")
        self.assertEqual(ran.stdout, "ok 1 documents next 2 segments 1\n")
        self.store.write_bytes(self.store.read_bytes().replace(b"wort zahl", b"wort zehl"))
        self.run_line(r"\Arubewola: /.*/s: damaged \(.*\n", "check", status=1)
        self.store.unlink()
        self.run_line("missing", "check", status=2)

    def test_segments_stay_few(self):
        log, counts = self.folder / "log", []
        with mock.patch.object(Store, "tidy", autospec=True, side_effect=Store.tidy) as tidy:
            for number in range(1, 146):
                self.write("log", "".join(f"zeile{line}\n" for line in range(number)))
                loading.load(str(self.store), logs.Logs(str(log)), jobs=1)
                counts.append(Store.check(self.store).segments)
        # Behind the 16th commit eight become one, behind the 24th eight more, and so on. Behind the
        # 136th there are 16 such, of which eight become one: 8, 8 and 1 are left.
        self.assertEqual([counts[at - 1] for at in (15, 16, 24, 127, 135, 136, 144)],
                         [15, 9, 10, 29, 30, 17, 18])
        self.assertEqual((max(counts), tidy.call_count), (30, 144 // 8 - 1 + 1))
        self.assertEqual(Store.check(self.store), (145, 146, 19))

    def test_a_bar_on_a_terminal(self):
        terminal, other = os.openpty()
        self.write("box", mbox(*(mail(f"wort{number} " * 99) for number in range(6_000))))
        line = [*RUBEWOLA, "load-mbox", self.store, self.folder / "box"]
        subprocess.run(line, stderr=other, check=True)
        self.assertRegex(os.read(terminal, 65_536), rb"\r\[[#.]{24}\] .* MB/s .* left")

    def test_a_prompt(self):
        Store.create(self.store, 64).close()
        typed = ("help\nadd red apple\n\nfind red AND\nfind red and red\nfind red\ncommit\nshow 1\n"
                 "add pear\nquit\n")
        told = r"(?s)deletes.*added 1.*a word must come.* 1: red apple\nfound 1.*committed.* red apple\n"
        self.assertIn("the operator is AND", self.run_line(told, "shell", input=typed).stderr)
        self.assert_found({"apple": [1], "pear": [2]})

    @unittest.skipUnless(shutil.which("mandoc"), "wants mandoc (apt-get install mandoc)")
    def test_the_manuals_are_well_formed(self):
        subprocess.run(["mandoc", "-Tlint", "-Wwarning", *(TOP / "man").glob("*.1")], check=True)

    def test_help_names_each_command(self):
        told = subprocess.run([*RUBEWOLA, "--help"], capture_output=True, text=True,
                              check=True).stdout
        for command in ("load-mbox", "load-maildir", "load-log", "load-json", "load-journal",
                        "search", "shell"):
            self.assertIn(command, told)
        self.assertGreaterEqual(sys.version_info, (3, 9))
