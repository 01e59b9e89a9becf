"""No text holds a reader up: what a million signs of any shape take, and mails of chance."""

import datetime
import io
import json
import random
import re
import time
import unittest

from rubewola import documents, jsonlines, layout, logs, mailboxes, mails, results

from shapes import HEADS, LINES, PAGES, PLACES, SHAPES, SIGNS

SECOND = 1.0  # Of a processor that does nothing else.
TRIES = 3
DAY = datetime.date(2020, 1, 1)
SEED, MAILS = 1, 3_000
TEXTS = {name: shape for name, shape in SHAPES.items() if name not in (*PAGES, *HEADS)}


def _usual():
    """How much longer this machine takes just now than one that has no other work."""
    text = "wort wort.teil " * 20_000
    begin = time.process_time()
    for _ in range(4):
        re.findall(r"[^\W_]+", text)
    return max(1.0, (time.process_time() - begin) / 0.04)


def by_mail(raw):
    parsed = mails.mail(raw)
    mails.query_of(raw)
    return documents.document("mbox", parsed.text, parsed.words)[0]


def by_log(line):
    return logs.entries_of(logs.Read(line, [], "x", 0, DAY), "log", logs._parsed, True)


def by_json(line):
    parsed = jsonlines._Fields().parsed
    return logs.entries_of(logs.Read(line, [], "x", 0, DAY), "json", parsed, True)


def by_mailbox(data):
    return sum(1 for _ in mailboxes.boxed(io.BytesIO(data)))


class Shapes(unittest.TestCase):
    """Each takes less than a second of processor time."""

    def assert_quick(self, read, data, name):
        spent = []
        while len(spent) < TRIES and (not spent or spent[-1] > SECOND):
            allowed, begin = _usual(), time.process_time()
            read(data)
            spent.append((time.process_time() - begin) / allowed)
        self.assertLess(spent[-1], SECOND, name)

    def test_texts(self):
        for name, shape in SHAPES.items():
            self.assertLessEqual(len(shape), SIGNS)
            places = {"a page"} if name in PAGES else {"a type", "a date", "an id", "a subject"} \
                if name in HEADS else {"a text", "a subject"}
            for place in places:
                raw = PLACES[place].replace("{}", shape).encode()
                self.assert_quick(by_mail, raw, f"{name} in {place}")

    def test_lines_of_logs(self):
        for name, shape in TEXTS.items():
            self.assert_quick(by_log, shape.encode(), name)

    def test_json(self):
        values = {"values": '{"a":[' + "1," * 499_000 + "1]}", "digits": f'{{"a":{"1" * 999_000}}}',
                  "names": "{" + "".join(f'"a{at}":1,' for at in range(90_000)) + '"b":1}',
                  "long names": f'{{"{"k" * 500_000}":[{"1," * 240_000}1]}}',
                  "values in one another": '{"a":' * 30 + "[" * 400_000, "braces": '{"a":' * 190_000}
        for name, value in values.items():
            self.assert_quick(by_json, value.encode(), name)
        for name, shape in TEXTS.items():
            value = json.dumps({"a": shape[:900_000], "time": shape[:90_000]}, ensure_ascii=False)
            if len(value) <= SIGNS:
                self.assert_quick(by_json, value.encode(), name)

    def test_mails_of_lines(self):
        for name, shape in LINES.items():
            self.assertLessEqual(len(shape), SIGNS)
            self.assert_quick(by_mail, shape.encode(), name)

    def test_subjects_by_which_is_sorted(self):
        for name, shape in {**TEXTS, "answers": "Re: " * (SIGNS // 4), "spaces behind an answer":
                            "Re: " + " " * (SIGNS - 4)}.items():
            self.assert_quick(results._bare, shape, name)
        for subject, wanted in (("Re: AW:  sv: plan", "plan"), ("Re:", "Re:"), ("Re: ", ""),
                                ("re:plan", "re:plan"), ("Fwd: re: ", ""), ("plan re: x", "plan re: x")):
            self.assertEqual(results._bare(subject), wanted)

    def test_mailboxes(self):
        for name, line in (("times", SHAPES["times"]), ("years", SHAPES["years"]),
                           ("lines", "From x\n" * 140_000), ("begins", "\nFrom " * 160_000)):
            self.assert_quick(by_mailbox, b"From x 00:00 2010\n" + line.encode(), name)


class Chance(unittest.TestCase):
    """Mails of chance, of pieces of heads and bodies and of shapes of any length."""

    def test_mails_of_chance(self):
        draw = random.Random(SEED)
        pieces = [b"Content-Type: multipart/mixed; boundary=b\n", b"--b\n", b"--b--\n", b"\n", b"\n\n",
                  b"Content-Type: multipart/alternative; boundary=\"c d\"\n", b"--c d\n", b"--c d--\n",
                  b"Content-Type: message/rfc822\n", b"From: =?utf-8?b?w6?= x\n", b"\xff\x00\n",
                  b"Content-Transfer-Encoding: base64\n", b"Date: 99 Foo 99999\n", b"%%%=\n",
                  b"Content-Type: text/html; charset=\"\n", b"<p>", b"Subject:\n \n", b": x\n",
                  b"Content-Transfer-Encoding: quoted-printable\n", b"=3D=\n", b"Message-ID: <\n",
                  b"Content-Disposition: attachment; filename*0=a; filename*1=b\n", b"Subject: ",
                  b"Content-Type: message/delivery-status\n", b"From: ", b"Date: ", b"Received: ",
                  b"Content-Type: ", b"&#x", b"<img alt=", b"text/plain; a=", b"\r", b"\x1d",
                  *(shape[:draw.randrange(1, 3_000)].encode() for shape in SHAPES.values()),
                  *(shape[:draw.randrange(1, 3_000)].encode() for shape in LINES.values())]
        for number in range(MAILS):
            raw = b"".join(draw.choices(pieces, k=draw.randint(0, 16)))
            begin = time.process_time()
            data = by_mail(raw)
            self.assertLess(time.process_time() - begin, 5 * SECOND, number)
            text, known = layout.split(data.decode().replace("\v", "\n"))
            self.assertEqual(known["kind"], "mbox", number)
            self.assertGreaterEqual(text.count("\n"), len(layout.HEAD), number)


if __name__ == "__main__":
    unittest.main()
