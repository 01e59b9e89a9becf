"""Mailbox files: where mails begin, and what is loaded again."""

import bz2
import gzip
import io
import lzma
import mailbox
import random
from pathlib import Path
from unittest import mock

from rubewola import mailboxes
from rubewola.mailboxes import boxed

from support import Stores, mail, mbox

# Mails in Latin-1, base64 and quoted-printable, one with broken headers, and an empty one.
ODD = Path(__file__).with_name("odd.mbox").read_bytes()


class Boxes(Stores):
    """What a load makes of mailboxes."""

    def test_a_mailbox_of_all_sorts(self):
        large = b"From x\nSubject: large\nMessage-ID: <6.a@x.org>\n\n" + b"many \xff\n" * 300_000
        self.write("mbox", ODD + large)
        self.run_line(r"^loaded 6 documents \(1 cut\) ", "load-mbox", self.folder / "mbox")
        self.assert_found({
            "straße café from:jörg from:gag.com subject:naïve id:<1.a@x.org>": [1],
            "date:2010": [1], "date:2010-5": [1], "date:2010-05-14": [1], "date:2011": [],
            "éléphant to:bo": [2], "naïf debian from:bo": [3], "hidden": [], "body": [4],
            "subject": [], "many subject:large": [6], "NOT large": [1, 2, 3, 4, 5]})
        for line, status, told in [
                ("straße", 0, r"1: 2010-05-14  Jörg  café naïve  <1.a@x.org>\n"),
                ("gag OR large --format paths", 0, "<6.a@x.org>\n<1.a@x.org>\n"),
                ("large --format json", 0, r'{"number": 6, .*"subject": "large",.*\\n\[cut]"}\n'),
                ("straße OR naïf --limit 1", 0, r"1: 2010-05-14 .*\n"),
                ("body OR naïf --limit 1", 0, r"4: .*\n"), ("naïf", 0, r"3:   Bo   \[2J  3\n"),
                ("NOT large --count", 0, "5\n"), ("green --count", 1, "0\n"), ("green", 1, "")]:
            self.run_line(rf"^{told}\Z", "search", *line.split(), status=status)

    def test_a_line_from_that_has_no_end(self):
        class Stream(io.BytesIO):
            """What is read, and how much is held of it."""
            held = 0

            def read(self, size):
                self.held = max(self.held, len(box.data)) if self.tell() else 0
                return super().read(size)
        stream = Stream(b"From x 00:00 2010\nx\n\nFrom " + b"x" * 9_000_000 + b"\n")
        with mock.patch.object(mailboxes, "_READ", 4_096), \
                mock.patch.object(mailboxes, "LONGEST_MAIL", 100_000):
            box = mailboxes._Box(stream)
            self.assertEqual([raw[:8] for raw in box.mails()], [b"x\n\nFrom "])
        self.assertLess(stream.held, 1_000_000)

    def test_mails_in_any_order_and_from_any_box(self):
        mails = [mail(f"wort{number}", Message_ID=f"<{number}@x>") for number in range(9)]
        self.loaded(2, "load-mbox", self.write("a", mbox(*mails[4:6])))
        self.loaded(3, "load-mbox", self.write("b", mbox(*mails[:3])))
        # The first mail is gone, others are before, between and behind.
        self.loaded(4, "load-mbox", self.write("a", mbox(mails[6], *mails[1:6], *mails[7:])),
                    self.folder / "b")
        self.loaded(0, "load-mbox", self.folder / "b", self.folder / "a")
        self.assert_found({f"wort{number}": [at] for number, at in
                           zip((4, 5, 0, 1, 2, 6, 3, 7, 8), range(1, 10))})

    def test_a_mail_that_was_read_is_no_new_one(self):
        raw = mail("wort", Message_ID="<1@x>", Subject="s")
        self.loaded(1, "load-mbox", self.write("box", mbox(raw)))
        marked = raw.replace("\n\n", "\nStatus: RO\nX-Status:\nX-UID: 7\n\n", 1)
        self.loaded(0, "load-mbox", self.write("box", mbox(marked)))

    def test_mails_without_ids_or_with_equal_ones(self):
        mails = [mail("eins"), mail("zwei"), mail("drei", Message_ID="<1@x>"),
                 mail("vier", Message_ID="<1@x>"), mail("eins")]
        self.loaded(4, "load-mbox", self.write("box", mbox(*mails)))
        self.loaded(0, "load-mbox", self.folder / "box")
        self.assert_found({"id:1@x": [3, 4], "eins": [1]})

    def test_a_deleted_last_document(self):
        self.loaded(2, "load-mbox", self.write("box", mbox(mail("eins"), mail("zwei"))))
        self.run_line("deleted 2", "shell", input="delete 2\n")
        self.write("box", mbox(mail("eins"), mail("zwei"), mail("drei")))
        self.loaded(2, "load-mbox", self.folder / "box")
        self.assert_found({"zwei": [3], "drei": [4]})

    def test_where_mails_begin(self):
        timed = mbox(mail("From the beginning\n\nFrom here on\nwords"), mail("zwei"))
        plain = b"From x\n\nzeile\nFrom y is no mail\n\nFrom z\n\nbody\n\nFrom w\n\n"
        for box, wanted in [
                (timed, [mail("From the beginning\n\nFrom here on\nwords").encode(),
                         mail("zwei").encode()]),
                (plain, [b"\nzeile\nFrom y is no mail\n", b"\nbody\n", b""]),
                (b"From x 2010 23:30\n\na\nFrom y Fri May 14 23:30:00 2010\n\nb\n",
                 [b"\na\n", b"\nb\n"]),
                (b"\n\nFrom x\r\n\r\na\r\n\r\nFrom y\r\n\r\nb\r\n", [b"\r\na\r\n", b"\r\nb\r\n"]),
                (b"From x", [b""]), (b"", [])]:
            with self.subTest(box):
                self.assertEqual(list(boxed(io.BytesIO(box))), wanted)

    def test_boxes_come_out_as_from_the_standard_library(self):
        draw, path = random.Random(2), self.folder / "box"
        for _ in range(20):
            lines = ["From", ">From x", "", "wort", "x" * 999]
            bodies = ["\n".join(draw.choices(lines, k=30)) for _ in range(draw.randint(1, 40))]
            path.write_bytes(mbox(*(mail(body + "\n") for body in bodies)))
            box = mailbox.mbox(path, create=False)
            wanted = [box.get_bytes(key) for key in box.iterkeys()]
            box.close()
            with open(path, "rb") as stream:
                self.assertEqual(list(boxed(stream)), wanted)

    def test_a_box_larger_than_what_is_read_at_once(self):
        large = mail("x" * 9_000_000, Subject="gross")
        small = [mail(f"wort{number}") for number in range(3)]
        data = mbox(*small, large, *small)
        self.assertEqual([len(raw) for raw in boxed(io.BytesIO(data))],
                         [len(raw) for raw in (*small, large, *small)])

    def test_packed_boxes_and_standard_input(self):
        for at, pack in enumerate((gzip.compress, lzma.compress, bz2.compress)):
            self.loaded(1, "load-mbox", self.write("box", pack(mbox(mail(f"wort{at}")))))
        self.run_line("loaded 1 ", "load-mbox", "-", input=mbox(mail("rohr")).decode())
        self.assert_found({"wort0": [1], "wort1": [2], "wort2": [3], "rohr": [4]})

    def test_what_is_no_mailbox(self):
        for data in (b"From: a@x\n\nbody\n", b"\x1f\x8bno gzip", b"\0" * 999, b"PK\x03\x04",
                     gzip.compress(b"no mail\n")):
            self.run_line("no mail in |damaged", "load-mbox", self.write("box", data), status=2)
        self.run_line("directory|folder", "load-mbox", self.folder, status=2)
        self.assertFalse(self.store.exists())
        self.loaded(0, "load-mbox", self.write("box", b""))
