"""Maildirs that live: mails come in any order, are read, moved, removed, renamed and put back."""

import json
import os
import random
import shutil
import subprocess
import unittest
from pathlib import Path
from unittest import mock

from rubewola import Reader, loading, maildirs, places, sources
from rubewola.places import place_of

from support import Stores, mail

# A test in five minutes has fewer.
STEPS = 72 if os.environ.get("RUBEWOLA_QUICK") == "1" else 200


class Maildirs(Stores):
    """What a load makes of a maildir, whatever became of it since the last."""

    def setUp(self):
        super().setUp()
        self.top = self.folder / "m"

    def deliver(self, name, word, folder="new"):
        return self.write(f"m/{folder}/{name}", mail(f"{word} text", From="a@x", Subject=word))

    def load(self, *tops, more=()):
        return self.run_line("^loaded ", "load-maildir", *more, *(tops or [self.top])).stderr

    def paths(self, query="NOT xyzzy"):
        told = self.ran("search", query, "--format", "paths").stdout
        return sorted(told.splitlines())

    def test_older_mails_from_another_folder(self):
        self.deliver("2000.a.h", "jung")
        self.write("n/cur/1000.b.h:2,S", mail("alt"))
        self.loaded(1, "load-maildir", self.top)
        self.loaded(1, "load-maildir", self.folder / "n")
        self.loaded(0, "load-maildir", self.folder / "n", self.top)
        self.assert_found({"jung": [1], "alt": [2]})

    def test_many_of_one_name_that_move(self):
        count, told = 300, []

        def noted(reader, *longest, whole=Reader._reply):
            told.append(len(reply := whole(reader, *longest)))
            return reply
        for at in range(count):
            self.write(f"m/f{at}/cur/1000.a.h:2,S", mail(f"w{at}"))
        self.loaded(count, "load-maildir", self.top)
        now = self.top.rename(self.folder / "n")
        with mock.patch.object(Reader, "_reply", noted), mock.patch.object(sources, "ASKED_AT_ONCE", 50):
            self.run_line(rf"^loaded {count} documents \({count} moved\)", "load-maildir", now)
        # Each of them is shown once, whatever its name.
        self.assertLess(sum(told), 1_000 * count)
        self.assertEqual(self.paths(), sorted(f"{now}/f{at}/cur/1000.a.h:2,S" for at in range(count)))
        shutil.copytree(now, self.folder / "o")
        self.loaded(0, "load-maildir", self.folder / "o")

    def test_mails_that_are_read_as_they_are_loaded(self):
        count, listed = 60, []

        def noted(folder, whole=os.listdir):
            listed.append(folder)
            return whole(folder)
        for at in range(count):
            self.deliver(f"{1_000 + at}.a.h", f"wort{at}")
        (self.top / "cur").mkdir()
        source = maildirs.Maildirs(str(self.top))
        for path in (self.top / "new").iterdir():
            path.rename(self.top / "cur" / f"{path.name}:2,S")
        with mock.patch.object(places.os, "listdir", noted), \
                mock.patch.object(places, "_SETTLED", 10**18):  # Others change the folder.
            self.assertEqual(loading.load(str(self.store), source, jobs=1).documents, count)
        self.assertLess(len(listed), 10)  # No folder once for each of its mails.

    def test_mails_of_one_second(self):
        self.deliver("1700000001.M5P1.h", "eins")
        self.loaded(1, "load-maildir", self.top)
        self.deliver("1700000001.M1000P2.h", "zwei")
        self.loaded(1, "load-maildir", self.top)
        self.assert_found({"zwei": [2]})

    def test_a_path_that_is_printed_is_where_the_mail_is(self):
        path = self.deliver("1000.a.h", "eins")
        self.loaded(1, "load-maildir", self.top)
        self.assertEqual(self.paths(), [str(path)])
        for name in ("cur/1000.a.h:2,", "cur/1000.a.h:2,RS", "new/1000.a.h"):
            (self.top / "cur").mkdir(exist_ok=True)
            path = path.rename(self.top / name)
            self.assertEqual(self.paths(), [str(path)])
            self.run_line(str(path), "search", "eins")
            told = json.loads(self.ran("search", "eins", "--format", "json").stdout)
            self.assertEqual(told["path"], str(path))
            self.assertEqual(self.paths(f"path:{path}"), [str(path)])
            self.loaded(0, "load-maildir", self.top)

    def test_a_mail_that_is_put_back(self):
        path = self.deliver("1000.a.h", "eins")
        kept = shutil.copy(path, self.folder / "kept")
        self.deliver("1001.b.h", "zwei")
        self.load()
        path.unlink()
        self.assertIn("1 pruned", self.load(more=["--prune"]))
        self.assert_found({"eins": [], "zwei": [2]})
        shutil.move(kept, self.top / "new/1000.a.h")
        self.loaded(1, "load-maildir", self.top)
        self.assert_found({"eins": [3]})

    def test_a_renamed_folder(self):
        for number in range(5):
            self.deliver(f"100{number}.a.h:2,S", f"wort{number}", "old/cur")
        self.load()
        (self.top / "old").rename(self.top / "renamed")
        self.assertRegex(self.load(), r"loaded 5 documents \(5 moved\)")
        self.assertEqual(self.paths(), [str(self.top / f"renamed/cur/100{number}.a.h:2,S")
                                        for number in range(5)])
        self.loaded(0, "load-maildir", "--prune", self.top)
        self.assertEqual(len(self.paths()), 5)

    def test_a_mail_in_two_folders(self):
        path = self.deliver("1000.a.h", "eins")
        copy = self.folder / "m/.Copy/cur/1000.a.h:2,S"
        copy.parent.mkdir(parents=True)
        shutil.copy(path, copy)
        self.loaded(1, "load-maildir", self.top)
        self.loaded(0, "load-maildir", self.top)
        gone, = self.paths()
        os.unlink(gone)
        self.loaded(1, "load-maildir", "--prune", self.top)
        self.assertEqual(self.paths(), [str(one) for one in (path, copy) if one.exists()])

    def test_two_mails_of_one_name(self):
        # Scripts number the mails of each folder from 1.
        for folder in ("a", "b"):
            self.deliver("1", f"in{folder}", f"{folder}/cur")
        self.loaded(2, "load-maildir", self.top)
        self.deliver("1", "inc", "c/cur")
        self.loaded(1, "load-maildir", self.top)
        self.loaded(0, "load-maildir", self.top)
        self.assert_found({"ina": [1], "inb": [2], "inc": [3]})
        (self.top / "a/cur/1").rename(self.top / "a/cur/1:2,S")
        (self.top / "b").rename(self.top / "d")
        self.assertRegex(self.load(more=["--prune"]), r"1 moved\)")
        self.assertEqual(self.paths("ina OR inb"),
                         [str(self.top / "a/cur/1:2,S"), str(self.top / "d/cur/1")])

    def test_names_that_differ_in_capitals(self):
        for name in ("1000.a.h", "1000.A.h"):
            self.deliver(name, "wort")
        self.loaded(2, "load-maildir", self.top)
        self.loaded(0, "load-maildir", self.top)

    def test_names_of_all_sorts(self):
        names = ["1000 with spaces.h", "1001\nline.h", os.fsdecode(b"1002\xff.h"), "1003.é.h",
                 "1004_5F.h:2,S", "1005." + "x" * 200]
        for number, name in enumerate(names):
            self.deliver(name, f"wort{number}", "Sent Items/cur")
        self.deliver(".hidden", "versteckt")
        (self.top / "Sent Items/cur/link").symlink_to(self.folder)
        (self.top / "circle").symlink_to(self.top)
        os.mkfifo(self.top / "Sent Items/cur/1006.fifo")
        self.loaded(6, "load-maildir", self.top)
        self.loaded(0, "load-maildir", self.top)
        told = self.ran("search", "NOT xyzzy", "--format", "json").stdout.splitlines()
        self.assertEqual({json.loads(line)["path"] for line in told},
                         {str(self.top / "Sent Items/cur" / name) for name in names})

    def test_a_deleted_last_document(self):
        self.deliver("1000.a.h", "eins")
        self.deliver("1001.b.h", "zwei")
        self.load()
        self.run_line("deleted 2", "shell", input="delete 2\n")
        self.deliver("1002.c.h", "drei")
        # One that was deleted in the store alone comes back.
        self.loaded(2, "load-maildir", self.top)
        self.assert_found({"zwei": [3], "drei": [4]})

    def test_prune_keeps_what_is_elsewhere(self):
        self.deliver("1000.a.h", "eins")
        self.write("n/cur/1001.b.h", mail("zwei"))
        self.write("box", b"From x\n" + mail("drei").encode())
        self.load(self.top, self.folder / "n")
        self.loaded(1, "load-mbox", self.folder / "box")
        self.assertNotIn("pruned", self.load(more=["--prune"]))
        shutil.rmtree(self.folder / "n")
        self.assertIn("1 pruned", self.load(more=["--prune"]))
        self.assert_found({"eins": [1], "zwei": [], "drei": [3]})

    def test_what_is_no_maildir(self):
        self.write("mh/brief", mail("x"))
        self.run_line("no maildir in ", "load-maildir", self.folder / "mh", status=2)
        self.run_line("No such file", "load-maildir", self.folder / "none", status=2)
        self.run_line("Not a directory", "load-maildir", self.folder / "mh/brief", status=2)
        self.assertFalse(self.store.exists())

    def test_folders_in_one_another(self):
        self.deliver("1000.a.h", "eins")
        deep = str(self.top)
        for _ in range(1_100):  # More than functions of Python may call one another.
            deep += "/d"
            os.mkdir(deep)
        self.addCleanup(subprocess.run, ["rm", "-rf", self.top], check=True)
        os.mkdir(f"{deep}/cur")
        Path(f"{deep}/cur/1001.a.h").write_text(mail("zwei"))
        os.symlink(self.top, self.top / "again")
        os.symlink("self", self.top / "new/self")
        self.run_line(r"(?m)new/self: Too many levels(?s:.*)^loaded 2 documents \(1 not readable\)",
                      "load-maildir", self.top)
        self.assert_found({"eins": [1], "zwei": [2]})

    def test_an_empty_maildir(self):
        (self.top / "new").mkdir(parents=True)
        self.loaded(0, "load-maildir", self.top)
        self.run_line("^0\n", "search", "--count", "x", status=1)

    def test_a_mail_that_goes_while_it_is_loaded(self):
        for number in range(3):
            self.deliver(f"100{number}.a.h", f"wort{number}")
        source = maildirs.Maildirs(str(self.top))
        (self.top / "cur").mkdir()
        (self.top / "new/1000.a.h").rename(self.top / "cur/1000.a.h:2,S")
        (self.top / "new/1001.a.h").unlink()
        self.assertEqual(loading.load(str(self.store), source).documents, 2)
        self.assert_found({"wort0": [1], "wort1": [], "wort2": [2]})

    def test_no_folder_is_looked_at_for_each_mail(self):
        for number in range(9):
            self.deliver(f"100{number}.a.h", f"wort{number}")
        with mock.patch.object(places.Places, "path_at", side_effect=AssertionError):
            source = maildirs.Maildirs(str(self.top))
            self.assertEqual(loading.load(str(self.store), source, jobs=1).documents, 9)

    def test_places(self):
        for path, place in [("/m/new/a", "/m/cur/a"), ("/m/cur/a:2,S", "/m/cur/a"),
                            ("/m/cur/a:2", "/m/cur/a:2"), ("/m/tmp/a:2,S", "/m/tmp/a:2,S"),
                            ("/cur/x", "/cur/x")]:
            self.assertEqual(place_of(path), place)


class Living(Stores):
    """A maildir that lives, beside a model of it: for each mail its word, where it is, and whether
    it is stored."""

    def setUp(self):
        super().setUp()
        self.draw = random.Random(39)
        self.here, self.gone, self.stored = {}, {}, set()
        self.folders = [self.folder / f"m/f{number}" for number in range(3)]
        for folder in self.folders:
            self.made(folder)
        self.count = 0

    @staticmethod
    def made(folder):
        for name in ("cur", "new", "tmp"):
            (folder / name).mkdir(parents=True)

    def deliver(self):
        self.count += 1
        word, at = f"wort{self.count}", self.draw.randint(1_000, 1_020)
        path = self.draw.choice(self.folders) / f"new/{at}.M{self.count}.h"
        path.write_text(mail(word, Subject=word))
        self.here[word] = path

    def read(self):
        word, path = self.draw.choice(sorted(self.here.items()))
        flags = "".join(sorted(self.draw.sample("DFRST", self.draw.randint(0, 3))))
        name = f"{path.name.partition(':2,')[0]}:2,{flags}"
        self.here[word] = path.rename(path.parent.parent / "cur" / name)

    def move(self):
        word, path = self.draw.choice(sorted(self.here.items()))
        folder = self.draw.choice(self.folders)
        self.here[word] = path.rename(folder / path.parent.name / path.name)

    def remove(self):
        word, path = self.draw.choice(sorted(self.here.items()))
        self.gone[word] = (path, path.read_text())
        path.unlink()
        del self.here[word]

    def restore(self):
        if self.gone:
            word = self.draw.choice(sorted(self.gone))
            path, text = self.gone.pop(word)
            folder = path.parent.parent if path.parent.exists() else self.folders[0]
            self.here[word] = folder / "new" / path.name.partition(":2,")[0]
            self.here[word].write_text(text)

    def rename(self):
        at = self.draw.randrange(len(self.folders))
        old, new = self.folders[at], self.folder / f"m/f{self.draw.randint(10, 10_000)}"
        if not new.exists():
            old.rename(new)
            self.folders[at] = new
            self.here = {word: new / path.relative_to(old) if old in path.parents else path
                         for word, path in self.here.items()}

    def load(self, *more):
        if self.draw.random() < 0.3:
            self.kill_in_midst("load-maildir", *more, self.folder / "m")
        self.run_line("^loaded ", "load-maildir", *more, "--jobs", "1", self.folder / "m")
        self.stored |= set(self.here)
        if more:
            self.stored = set(self.here)
        self.check()

    def check(self):
        told = self.ran("search", "--format", "json", "NOT xyzzy").stdout.splitlines()
        docs = [json.loads(line) for line in told]
        self.assertEqual(sorted(doc["text"].strip() for doc in docs), sorted(self.stored))
        for doc in docs:
            word = doc["text"].strip()
            if word in self.here:
                self.assertEqual(doc["path"], str(self.here[word]))

    def test_many_steps(self):
        steps = [self.deliver, self.read, self.move, self.remove, self.restore, self.rename]
        weights = [40, 20, 12, 12, 8, 3]
        for _ in range(5):
            self.deliver()
        for step in range(1, STEPS + 1):
            if not self.here:
                self.deliver()
            self.draw.choices(steps, weights)[0]()
            if step % 8 == 0:
                self.load(*(["--prune"] if step % 24 == 0 else []))
        self.load("--prune")
        self.assertGreater(len(self.stored), 20)


if __name__ == "__main__":
    unittest.main()
