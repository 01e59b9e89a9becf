"""The text of attached files: what it is, and that no program of the table does harm."""

import base64
import os
import random
import sys
import time
import unittest
from unittest import mock

from rubewola import documents, filters, layout, mails

from support import LONG, Stores, mbox

HEAD = (b"From: a@x\nSubject: s\nContent-Type: multipart/mixed; boundary=b\n\n"
        b"--b\n\nkoerper\n")
PYTHON = sys.executable


def attached(kind, data, name="datei", more=b""):
    told = (f"--b\nContent-Type: {kind}\nContent-Disposition: attachment; filename={name}\n"
            "Content-Transfer-Encoding: base64\n\n").encode()
    return told + more + base64.encodebytes(data)


def whole(*parts):
    return HEAD + b"".join(parts) + b"--b--\n"


def read(raw, table):
    with documents.choosing(documents.Extras(filters=table)):
        return mails.mail(raw)


class Filters(unittest.TestCase):
    """Mails by themselves."""

    def setUp(self):
        filters._late.clear()

    def text(self, command, data=b"inhalt", told=""):
        parsed = read(whole(attached("application/pdf", data)), {"application/pdf": command})
        self.assertRegex(parsed.unfiltered, told or r"\A\Z")
        self.assertIn("koerper", parsed.text)
        return parsed.text.partition("koerper\n")[2].strip()

    def test_texts_and_pages(self):
        raw = whole(attached("text/plain; charset=utf-8", "beilage é".encode(), "a.txt"),
                    attached("text/html", b"<p>seite<script>x</script>", "b.html"),
                    attached("application/pdf", b"%PDF", "c.pdf"))
        for table in (None, {}):
            parsed = read(raw, table)
            self.assertEqual("beilage é" in parsed.text, table is not None)
            self.assertEqual("[b.html]\nseite" in parsed.text, table is not None)
            self.assertNotIn("%PDF", parsed.text)
            self.assertEqual(parsed.unfiltered, "")
            self.assertIn("a.txt, b.html, c.pdf\n", parsed.text)

    def test_a_program(self):
        self.assertEqual(self.text(["tr", "a-z", "A-Z"]), "[datei]\nINHALT")
        self.assertEqual(self.text(["cat"], b"a\fb\r\n\xff"), "[datei]\na\nb\nÿ")
        self.assertEqual(self.text(["true"]), "")
        self.assertEqual(self.text(["printf", "%s", "$HOME; `x`"]), "[datei]\n$HOME; `x`")

    def test_programs_that_fail(self):
        self.assertEqual(self.text(["false"], told="datei: false ended with status 1"), "")
        self.assertEqual(self.text(["sh", "-c", "echo x; exit 3"], told="ended with status"), "")
        self.assertEqual(self.text(["no-such-filter"], told="there is no program"), "")
        parsed = read(whole(attached("application/pdf", b"x"), attached("image/png", b"zwei")),
                      {"application/pdf": ["false"], "image/png": ["cat"]})
        self.assertIn("[datei]\nzwei", parsed.text)
        self.assertTrue(parsed.unfiltered)

    def test_time(self):
        begin = time.monotonic()
        with mock.patch.object(filters, "SECONDS", 1):
            for _ in range(filters.MOST_LATE):
                self.assertEqual(self.text(["sleep", "600"], told="took too long"), "")
            self.assertEqual(self.text(["sleep", "600"], told="too late 3 times"), "")
            hidden = ["sh", "-c", "setsid sleep 601 & exec >&-; sleep 602"]
            self.assertEqual(self.text(hidden, told="took too long"), "")
        ends = begin + LONG
        while filters.shut() and self.running("601", "602"):
            self.assertLess(time.monotonic(), ends)
            time.sleep(0.01)

    @staticmethod
    def running(*seconds):
        """Sleeps of so many seconds that are there, but for those that have ended."""
        found = []
        for name in filter(str.isdecimal, os.listdir("/proc")):
            try:
                with open(f"/proc/{name}/cmdline", "rb") as file:
                    words = file.read().split(b"\0")
            except OSError:
                continue
            if words[0] == b"sleep" and words[1].decode() in seconds:
                found.append(name)
        return found

    def test_all_of_a_mail(self):
        parts = [attached("application/pdf", b"x", f"n{at}") for at in range(40)]
        parsed = read(whole(*parts), {"application/pdf": ["cat"]})
        self.assertEqual(parsed.text.count("]\nx\n"), filters.MOST_FILES)
        with mock.patch.object(filters, "MAIL_SECONDS", -1):
            self.assertRegex(read(whole(*parts), {"application/pdf": ["cat"]}).unfiltered, "too long")

    def test_memory_and_output(self):
        eats = [PYTHON, "-c", "x = [b'a' * 10_000_000 for _ in range(400)]; print(len(x))"]
        self.assertEqual(self.text(eats, told="ended with status"), "")
        self.assertLessEqual(len(self.text(["yes"])), filters.MOST_BYTES + 10)
        large = ["sh", "-c", "trap '' XFSZ; head -c 200000000 /dev/zero > file"]
        self.assertEqual(self.text(large, told="ended with status"), "")

    def test_where_it_runs(self):
        self.assertEqual(self.text(["ls", "-A"]), "")
        told = self.text(["env"]).splitlines()[1:]
        self.assertLessEqual({line.partition("=")[0] for line in told},
                             {"PATH", "LANG", "HOME", "TMPDIR", "PWD", "SHLVL", "_", "OLDPWD"})
        folder = self.text(["pwd"]).splitlines()[1]
        self.assertFalse(os.path.exists(folder))
        self.assertEqual(self.text(["sh", "-c", "ls -l /proc/self/fd | grep -c -- '->'"]).splitlines()[-1],
                         "4")

    @unittest.skipUnless(filters.shut(), "wants a system whose users may unshare")
    def test_without_a_network(self):
        lines = self.text(["cat", "/proc/net/dev"]).splitlines()[3:]
        self.assertEqual([line.split(":")[0].strip() for line in lines], ["lo"])

    def test_mails_of_chance(self):
        draw = random.Random(4)
        pieces = [HEAD, b"--b\n", b"--b--\n", b"\n", b"Content-Type: text/html\n", b"<p>a", b"\xff\0",
                  b"Content-Type: text/plain; charset=x\n", b"Content-Disposition: attachment\n",
                  b"Content-Transfer-Encoding: base64\n", b"Content-Type: message/rfc822\n",
                  b'Content-Disposition: attachment; filename="\x1d[x]"\n', b"YQ==\n", b"\xc6\xbb"]
        for _ in range(600):
            raw = b"".join(draw.choices(pieces, k=draw.randint(0, 14)))
            with documents.choosing(documents.Extras(filters={"text/html": ["no-such-filter"]})):
                made = mails.entry("mbox", raw, [], "")
            self.assertEqual(layout.split(made.data.decode().replace("\v", "\n"))[1]["kind"], "mbox")

    def test_without_unshare(self):
        with mock.patch.object(filters, "shut", tuple):
            self.assertEqual(self.text(["cat"]), "[datei]\ninhalt")


class Loads(Stores):
    """Loads with filters."""

    def load(self, *words):
        box = self.write("box", mbox(whole(attached("application/pdf", b"inhalt wort", "c.pdf")),
                                     whole(attached("application/x-bad", b"schlecht", "d.bad"))))
        config = ('[filters]\n"application/pdf" = ["cat"]\n"application/x-bad" = ["false"]\n')
        self.write("c/rubewola/config.toml", config)
        with mock.patch.dict(os.environ, {"XDG_CONFIG_HOME": str(self.folder / "c")}):
            return self.ran("load-mbox", *words, box)

    def test_off_by_default(self):
        self.assertRegex(self.load().stderr, "loaded 2 documents in")
        self.assert_found({"inhalt": [], "koerper": [1, 2]})

    @unittest.skipUnless(sys.version_info >= (3, 11), "wants Python 3.11")
    def test_filters(self):
        said = self.load("--filters").stderr
        self.assertRegex(said, r"loaded 2 documents \(1 not filtered\) in")
        self.assertIn("not filtered: d.bad: false ended with status 1", said)
        self.assert_found({"inhalt": [1], "koerper": [1, 2], "attachment:d.bad": [2], "schlecht": []})


if __name__ == "__main__":
    unittest.main()
