"""Rot that no index sees: each document has a digest, and a check compares it."""

import json
import random
import re
import subprocess
import unittest
import zlib
from unittest import mock

from rubewola import Damaged, Refused, Store, documents, inspecting, searching, views
from rubewola.commits import COMMIT
from rubewola.words import NAMING, SIGN, named

from support import RUBEWOLA, Stores, mail, mbox

SIGNS = "!#$%&()*+,-/;<=>"
BEHIND = "".join(f" {word}" for word in (COMMIT, *named("commit", "12"))).encode()


class Digests(unittest.TestCase):
    """The digest by its definition, and each bit changed."""

    def test_what_it_is(self):
        data = documents.sealed(b"text")
        self.assertEqual(data[:5], b"text ")
        told = "".join(f"{SIGNS.index(chr(sign)):x}" for sign in data[5:])
        self.assertEqual(int(told, 16), zlib.crc32(b"text"))
        self.assertEqual(len(data), 4 + documents.DIGEST_BYTES)

    def test_each_bit(self):
        for words in ([], [f"{SIGN}20100514", f"{SIGN}from_ada"]):
            data, _ = documents.document("mbox", "Ada, lists.debian.org (x)\n!! -- é", words)
            self.assertEqual(documents.judged(data), documents.SOUND)
            self.assertEqual(documents.judged(data + BEHIND), documents.SOUND)
            for at in range(len(data)):
                for bit in range(8):
                    other = bytearray(data)
                    other[at] ^= 1 << bit
                    self.assertEqual(documents.judged(bytes(other)), documents.OTHER, (at, bit))
                    self.assertEqual(documents.judged(bytes(other) + BEHIND), documents.OTHER, (at, bit))

    def test_documents_without_one(self):
        mark = f"\v\x1d{SIGN}log"
        for text in ("", "wort", "a, b!!!!!!!!", "--------", f"x{mark}", f"x!{mark} {SIGN}2010 teil",
                     f"{mark}{BEHIND.decode()}", f"x{mark} {NAMING}id_a_40b"):
            self.assertEqual(documents.judged(text.encode()), documents.NONE, text)

    def test_bytes_of_chance(self):
        draw = random.Random(7)
        pieces = [b" ", b"!", b"!#$%&()*", b"\v\x1d", SIGN.encode(), b"a", b"\xc6", b"_", b"\0", b"("]
        for _ in range(3_000):
            data = b"".join(draw.choices(pieces, k=draw.randint(0, 9)))
            self.assertIn(documents.judged(data), (documents.NONE, documents.OTHER), data)
            self.assertEqual(documents.judged(documents.sealed(data + SIGN.encode())), documents.SOUND)

    def test_a_document_as_long_as_it_may_be(self):
        data, is_cut = documents.document("mbox", "wort.teil " * 200_000)
        self.assertTrue(is_cut)
        self.assertLessEqual(len(data), documents.MOST_BYTES)
        self.assertEqual(documents.judged(data), documents.SOUND)


class Asked(unittest.TestCase):
    """How many documents a check asks for."""

    def test_a_store_of_which_much_is_damaged(self):
        class Damaged:
            """A store of which the first few of each thousand documents are refused."""
            asked = 0

            def ask_all(self, commands):
                commands = [*commands]
                self.asked += len(commands)
                for command in commands:
                    if int(command.split()[1]) % 1_000 < bad:
                        raise Refused("damaged")
                    yield "text "
        for bad in (1_000, 1, 0):
            store = Damaged()
            replies = [*inspecting._replies(store, [*range(1, 3_001)])]
            self.assertEqual([number for number, _ in replies], [*range(1, 3_001)])
            self.assertEqual(sum(not reply for _, reply in replies), bad * 3)
            self.assertLessEqual(store.asked, 9_000)


class Checks(Stores):
    """Stores of which a hand has changed a byte."""

    def change(self, before, after):
        data = self.store.read_bytes()
        self.assertEqual(data.count(before), 1)
        self.store.write_bytes(data.replace(before, after))

    def test_a_comma_that_became_a_point(self):
        self.store.unlink(missing_ok=True)
        self.run_line(r"\A\Z", "create", "--size", "1M")
        self.loaded(2, "load-mbox", self.write("box", mbox(
            mail("eins, zwei", Message_ID="<1@x>"), mail("drei \\ \\n,,,", Message_ID="<2@x>"))))
        self.loaded(1, "load-log", self.write("log", "GROSS wort\n"))
        self.run_line(r"\Aok 3 documents next 4 segments 2\n\Z", "check")
        for before, after in ((b"eins, zwei", b"eins. zwei"), (b"GROSS", b"GrOSS")):
            self.change(before, after)
        self.assertEqual(Store.check(self.store), (3, 4, 2))
        ran = self.run_line(r"\A\Z|.", "check", status=1)
        self.assertEqual((ran.stdout, ran.stderr.splitlines()), ("", [
            f"rubewola: 1 <1@x>: {documents.OTHER}", f"rubewola: 3: {documents.OTHER}"]))

    def test_a_line_that_became_two(self):
        self.loaded(1, "load-mbox", self.write("box", mbox(mail("eins\nzwei"))))
        self.change(b"eins\vzwei", b"eins\nzwei")
        self.run_line(rf"\Arubewola: 1: {documents.OTHER}\n\Z", "check", status=1)

    def test_a_text_that_is_none_any_more(self):
        self.loaded(2, "load-mbox", self.write("box", mbox(mail("eins, zwei"), mail("drei"))))
        self.change(b"eins, zwei", b"eins\xff zwei")
        ran = self.run_line("1: .*damaged", "show", "1", "2", "9", status=2)
        self.assertIn("drei", ran.stdout)
        self.assertIn("9: no such document", ran.stderr)

    def test_a_word_and_a_comma(self):
        self.loaded(1, "load-mbox", self.write("box", mbox(mail("eins, zwei"))))
        self.change(b"eins, zwei", b"eims. zwei")
        self.run_line(rf"(?s)\Arubewola: .*: damaged.*\nrubewola: 1: {documents.OTHER}\n\Z", "check",
                      status=1)

    def test_documents_of_another_program(self):
        with Store.create(self.store, 4_096) as store:
            list(store.add_all(["eins", "zwei\ndrei", "--------"]))
            store.commit()
        ran = self.run_line(r"\Aok 3 documents next 4 segments 1\n", "check")
        self.assertIn("3 documents have no digest", ran.stderr)


class Searches(Stores):
    """A store of which the text of one document cannot be read any more: all others are found."""

    WHY = r"damaged \(some byte is another one than was written"

    def setUp(self):
        super().setUp()
        self.run_line(r"\A\Z", "create", "--size", "1M")

    def damage(self, *words, store=None):
        """Changes a byte in the text of the documents that have these words."""
        store = store or self.store
        data = store.read_bytes()
        for word in words:
            self.assertEqual(data.count(word + b", "), 1)
            data = data.replace(word + b", ", word + b"\xff ")
        store.write_bytes(data)

    def load(self, *names):
        self.loaded(len(names), "load-mbox", self.write("box", mbox(*(
            mail(f"wort {name}, zwei", From=f"{name}@x", Message_ID=f"<{name}@x>",
                 Date=f"Fri, {day} May 2010 23:30:00 +0000")
            for day, name in enumerate(names, 1)))))

    def test_the_others_are_printed(self):
        self.load("ada", "bdale", "carl")
        self.damage(b"wort bdale")
        for words, wanted in (([], ["<ada@x>", "<carl@x>"]), (["--limit", "2"], ["<carl@x>"]),
                              (["--sort", "from"], ["<ada@x>", "<carl@x>"]),
                              (["--unique", "--newest"], ["<carl@x>", "<ada@x>"])):
            ran = self.run_line(rf"(?m)^rubewola: 2: {self.store}: {self.WHY}", "search", "--format",
                                "paths", *words, "wort", status=2)
            self.assertEqual(ran.stdout.splitlines(), wanted)
            self.assertEqual(len(ran.stderr.splitlines()), 1)
        told = self.run_line(self.WHY, "search", "--format", "json", "wort", status=2).stdout
        self.assertEqual([json.loads(line)["number"] for line in told.splitlines()], [1, 3])
        told = self.run_line(self.WHY, "search", "from:bdale*", status=2)
        self.assertEqual(told.stdout, "")
        self.run_line(r"\A3\n\Z", "search", "--count", "wort")
        self.run_line(r"\A3: .*\n\Z", "search", "--limit", "1", "wort")

    def test_of_several_stores(self):
        self.load("ada", "bdale")
        other = self.folder / "t"
        other.write_bytes(self.store.read_bytes())
        self.damage(b"wort ada", store=other)
        ran = subprocess.run([*RUBEWOLA, "search", "-s", self.store, "-s", other, "wort"], check=False,
                             capture_output=True, encoding="utf-8")
        self.assertRegex(ran.stderr, rf"^rubewola: {other}:1: {other}: {self.WHY}")
        self.assertEqual(ran.returncode, 2)
        self.assertEqual([line.split(": ")[0] for line in sorted(ran.stdout.splitlines())],
                         [f"{self.store}:1", f"{self.store}:2", f"{other}:2"])

    def test_the_first_one(self):
        self.load("ada", "bdale")
        self.damage(b"wort ada")
        ran = self.run_line(rf"(?m)^rubewola: 1: .*{self.WHY}", "search", "date:2010", status=2)
        self.assertRegex(ran.stdout, r"\A2: 2010-05-02 .*\n\Z")
        self.run_line(r"\A2: ", "search", "from:bdale*")
        self.run_line(rf"(?m)1: .*{self.WHY}(?s:.*)^2: .*\nfound 2$", "shell", input="find wort\n")

    def test_flags(self):
        for name, flags in (("1000.a.h", "S"), ("1001.b.h", "S"), ("1002.c.h", "")):
            self.write(f"m/cur/{name}:2,{flags}", mail(f"wort {name[5]}, zwei"))
        self.loaded(3, "load-maildir", self.folder / "m")
        self.damage(b"wort a")
        ran = self.run_line(rf"rubewola: 1: .*{self.WHY}", "search", "flag:seen", status=0)
        self.assertRegex(ran.stdout, r"\A2: .*\n\Z")
        self.run_line(r"\A3: ", "search", "NOT flag:seen wort", status=0)

    def test_a_mail_that_moves(self):
        self.write("m/cur/1000.a.h", mail("wort a, zwei"))
        self.write("m/cur/1001.b.h", mail("wort b, zwei"))
        self.loaded(2, "load-maildir", self.folder / "m")
        self.damage(b"wort a")
        (self.folder / "m").rename(self.folder / "n")
        self.run_line(r"^loaded 2 documents \(1 moved\)", "load-maildir", self.folder / "n")
        self.assert_found({"wort": [1, 3, 4]})

    def test_the_page(self):
        self.loaded(7, "load-log", self.write("log", "".join(f"wort {at}, zwei\n" for at in range(7))))
        self.damage(b"wort 3")
        pages = views.Views([str(self.store)], "/x/")
        self.addCleanup(lambda: [one.close() for one, _ in pages._sessions[0]._free])
        page = pages.view("", "wort", 0)
        self.assertEqual(page.status, 200)
        self.assertIn("7 found", page.text)
        self.assertEqual(re.findall(r"<li><a href=[^>]*>(\d)</a>", page.text), [*"7653214"])
        self.assertRegex(page.text, rf">4</a>.*{self.WHY}")
        page = pages.view("doc/0/4", "wort", 0)
        self.assertEqual(page.status, 500)
        self.assertRegex(page.text, self.WHY)
        page = pages.view("doc/0/3", "wort", 0)
        self.assertEqual(page.status, 200)
        self.assertEqual(re.findall(r"<li>(?:<a [^>]*>)?(\d)\b", page.text), [*"12356"])

    def test_days_that_cannot_be_read(self):
        self.load("ada", "bdale", "carl")
        with Store(self.store) as store:
            def inside(span):
                raise Damaged("damaged")
            found = mock.Mock(numbers=[1, 2, 3], store=store, inside=inside)
            self.assertEqual(searching.newest(found, 2), [2, 3])


if __name__ == "__main__":
    unittest.main()
