"""Flags and folders of maildirs, MH folders and folders of `.eml` files, and mails as they lie."""

import itertools
import os
import random
import subprocess
from unittest import mock

from rubewola import Store, fields, searching
from rubewola.errors import QueryRefused
from rubewola.places import Places
from rubewola.words import NAMING, SIGN

from support import RUBEWOLA, Stores, mail, mbox

LETTERS = {"P": "passed", "R": "replied", "S": "seen", "T": "trashed", "D": "draft", "F": "flagged"}


class Flags(Stores):
    """Mails whose flags change."""

    def put(self, name, body, folder="M"):
        return self.write(f"{folder}/{name}", mail(body, From="a@x", Subject=body))

    def test_flags_as_they_are_now(self):
        self.put("cur/1.a:2,S", "eins wort")
        self.put("cur/2.a:2,FS", "zwei wort")
        self.put("cur/3.a", "drei wort")
        self.put("new/4.a", "vier wort")
        self.loaded(4, "load-maildir", self.folder / "M")
        self.loaded(1, "load-mbox", self.write("box", mbox(mail("post wort"))))
        wanted = {
            "flag:seen": [1, 2], "NOT flag:seen": [3, 4, 5], "flag:seen flag:flagged": [2],
            "flag:seen NOT flag:flagged": [1], "wort (flag:flagged OR vier)": [2, 4],
            "FLAG:New": [4], "post OR flag:new": [4, 5], "flag:draft": [], "wort NOT flag:draft":
            [1, 2, 3, 4, 5], "flag:seen OR NOT flag:seen": [1, 2, 3, 4, 5],
            "flag:seen OR flag:flagged OR flag:new": [1, 2, 4]}
        self.assert_found(wanted)
        os.rename(self.folder / "M/new/4.a", self.folder / "M/cur/4.a:2,RS")
        os.rename(self.folder / "M/cur/2.a:2,FS", self.folder / "M/cur/2.a:2,")
        (self.folder / "M/cur/1.a:2,S").unlink()
        self.assert_found({"flag:seen": [4], "flag:replied": [4], "flag:new": [], "flag:flagged": []})
        self.run_line(r"\A1\n\Z", "search", "--count", "flag:seen")
        self.run_line("(?m)^4: .*vier", "search", "--limit", "1", "flag:seen OR flag:replied")
        self.run_line("flags are passed, replied", "search", "flag:unread", status=2)
        self.run_line("may have 3 flags", "search", "flag:seen flag:new flag:draft flag:passed",
                      status=2)
        self.run_line("a closing bracket", "search", "flag:seen )", status=2)
        self.run_line("deleted 1 documents", "delete", "--query", "flag:seen")

    def test_queries_of_chance(self):
        draw, names = random.Random(5), {}
        for at in range(1, 9):
            letters = "".join(draw.sample("PRSTDF", draw.randrange(4)))
            path = self.put(f"cur/{at}.a:2,{''.join(sorted(letters))}", f"w{at % 3} v{at % 2}")
            names[at] = {LETTERS[letter] for letter in path.name.partition(":2,")[2]}
        self.loaded(8, "load-maildir", self.folder / "M")
        words = {at: {f"w{at % 3}", f"v{at % 2}"} for at in names}
        terms = ["flag:seen", "flag:flagged", "flag:draft", "w0", "w1", "v1"]

        def drawn(depth):
            if depth == 0 or draw.random() < 0.2:
                term = draw.choice(terms)
                has = term.removeprefix("flag:")
                return term, lambda at: has in names[at] or has in words[at]
            (a, is_a), (b, is_b) = drawn(depth - 1), drawn(depth - 1)
            return draw.choice([(f"({a} OR {b})", lambda at: is_a(at) or is_b(at)),
                                (f"({a} {b})", lambda at: is_a(at) and is_b(at)),
                                (f"(NOT {a})", lambda at: not is_a(at))])
        with Store(self.store) as store:
            for _ in range(60):
                query, meant = drawn(3)
                self.assertEqual(searching.find(store, query), [*filter(meant, names)], query)

    def test_documents_of_any_shape(self):
        with Store.create(self.store, 4_096) as store:
            pieces = [f"\v\x1d{SIGN}maildir", f" {NAMING}path_a_2F", f" {NAMING}path__00",
                      f" {NAMING}flag_seen", f" {SIGN}maildir", "wort", f" {NAMING}path_" + "_2F" * 300]
            texts = ["".join(some) for some in itertools.product(pieces, repeat=3)]
            list(store.add_all(texts))
            self.assertEqual(searching.find(store, "flag:seen"), [])
            self.assertEqual(len(searching.find(store, "NOT flag:new")), len(texts))
            self.assertRaises(QueryRefused, searching.find, store, "flag:seen " * 400)
        self.assertEqual(fields._flags_of("/m/new/x:2,:2,Sx"), {"seen", "new"})
        self.assertEqual(fields._flags_of(""), set())

    def test_folders(self):
        self.put("cur/1.a", "eins")
        self.put("lists/debian-devel/cur/2.a", "zwei")
        self.put(".Sent.2010/new/3.a", "drei")
        self.loaded(3, "load-maildir", self.folder / "M")
        self.assert_found({"folder:m": [1], "folder:lists/debian-devel": [2], "folder:debian": [2],
                           "folder:sent": [3], 'folder:"sent 2010"': [3], "folder:sen*": [3],
                           "NOT folder:m": [2, 3], "subject:folder": []})


class Loose(Stores):
    """Mails that stand in no maildir."""

    def numbers(self, *names):
        return [self.write(f"mh/{name}", mail(f"brief {name}", Message_ID=f"<{name}@x>"))
                for name in names]

    def test_mh(self):
        self.numbers("inbox/1", "inbox/2", "inbox/3", "inbox/.4", "inbox/x", "work/1")
        self.write("mh/inbox/.mh_sequences", "cur: 1\n")
        load = ["load-maildir", self.folder / "mh"]
        self.loaded(4, *load)
        self.loaded(0, *load)
        self.assert_found({"folder:inbox": [1, 3, 4], "folder:work": [2]})
        # What `folder -pack` does: the numbers are given anew.
        (self.folder / "mh/inbox/1").unlink()
        for old, new in ((2, 1), (3, 2)):
            os.rename(self.folder / f"mh/inbox/{old}", self.folder / f"mh/inbox/{new}")
        self.loaded(2, *load)
        self.loaded(0, *load)
        self.run_line(r"loaded 0 documents \(1 pruned\)", "load-maildir", "--prune",
                      self.folder / "mh")
        said = self.run_line(r"\A", "search", "--format", "paths", "folder:inbox").stdout.split()
        self.assertEqual(sorted(said), [str(self.folder / f"mh/inbox/{at}") for at in (1, 2)])
        self.assertEqual(len(self.found("brief")), 3)

    def test_files_of_single_mails(self):
        self.write("m/a.eml", mail("eins"))
        self.write("m/below/B.EML", mail("zwei"))
        self.write("m/below/readme.txt", "nichts")
        self.write("m/.c.eml", mail("drei"))
        self.write("m/tmp/7", mail("vier"))
        load = ["load-maildir", self.folder / "m"]
        self.loaded(2, *load)
        self.loaded(0, *load)
        first, = self.found("eins")
        self.write("m/a.eml", mail("neu"))
        self.loaded(1, *load)
        self.assert_found({"eins": [], "neu": [3]})
        self.assertNotEqual(first, 3)
        os.rename(self.folder / "m/below/B.EML", self.folder / "m/B.EML")
        self.run_line(r"loaded 1 documents \(1 moved\)", *load)
        self.assertEqual(len(self.found("zwei")), 1)

    def test_no_mails(self):
        self.write("m/a.txt", "x")
        self.run_line("no maildir in .*numbered files of MH", "load-maildir", self.folder / "m",
                      status=2)


class Raw(Stores):
    """A mail as its file has it."""

    def test_raw(self):
        raw = b"From: a@x\nSubject: =?utf-8?q?=C3=A9?=\n\nbody \xff\n"
        path = self.write("M/cur/1.a", raw)
        self.write("M/cur/2.a", mail("zwei"))
        self.loaded(2, "load-maildir", self.folder / "M")
        self.loaded(1, "load-mbox", self.write("box", mbox(mail("post"))))
        show = [*RUBEWOLA, "show", "--raw", self.store]
        self.assertEqual(subprocess.run([*show, "1"], check=True, capture_output=True).stdout, raw)
        os.rename(path, f"{path}:2,S")
        self.assertEqual(subprocess.run([*show, "1"], check=True, capture_output=True).stdout, raw)
        ran = subprocess.run([*show, "3", "9", "1"], check=False, capture_output=True, text=False)
        self.assertEqual((ran.returncode, ran.stdout), (1, raw))
        self.assertIn(b"3: no mail of a maildir", ran.stderr)
        self.assertIn(b"9: no such document", ran.stderr)
        (self.folder / "M/cur/2.a").write_bytes(b"another\n")
        os.unlink(f"{path}:2,S")
        ran = self.run_line("1: its file is not there", "show", "--raw", "1", "2", status=1)
        self.assertIn("has another mail now", ran.stderr)

    def test_names_are_kept_until_a_folder_changes(self):
        folder = self.folder / "m" / "cur"
        folder.mkdir(parents=True)
        (folder / "one:2,").touch()
        place, found = str(folder / "one"), {}
        os.utime(folder, (1_000_000_000, 1_000_000_000))
        with mock.patch.object(os, "listdir", wraps=os.listdir) as listed:
            for _ in range(3):
                found = Places().path_at(place)
            self.assertEqual((found, listed.call_count), (f"{place}:2,", 1))
            for flags in ("S", "RS", "FRS"):  # Each change is seen, whatever the clock tells.
                os.rename(found, f"{place}:2,{flags}")
                found = Places().path_at(place)
                self.assertEqual(found, f"{place}:2,{flags}")
            os.rename(found, self.folder / "gone")
            self.assertIsNone(Places().path_at(place))

    def test_what_a_store_may_name(self):
        spelled = "_2Fdev_2Fzero"
        with Store.create(self.store, 4_096) as store:
            store.add(f"x\v\x1d{SIGN}maildir {NAMING}path_{spelled} {NAMING}sum_x")
            store.commit()
        with mock.patch("builtins.open", side_effect=AssertionError):
            self.run_line("its file is not there", "show", "--raw", "1", status=1)


if __name__ == "__main__":
    import unittest
    unittest.main()
