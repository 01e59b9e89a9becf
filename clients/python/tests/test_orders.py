"""Orders of what is found: sorted, from a place on, and one hit for each message id."""

import json
import re
import shutil
import subprocess

from support import RUBEWOLA, Stores, mail, mbox

# Day, sender, subject and message id of mails in the order of their numbers.
MAILS = [(3, "Carl <c@x>", "Re: Beta", "1@x"), (1, "ada <a@x>", "alpha", "2@x"),
         (2, "Bert <b@x>", "beta", "3@x"), (4, "Ada <a@x>", "Fwd: Re: gamma", "2@x")]


class Orders(Stores):
    """Four mails of four days, and a line between the days."""

    def setUp(self):
        super().setUp()
        self.loaded(4, "load-mbox", self.write("box", mbox(*(
            mail("wort", From=sender, Subject=subject, Message_ID=f"<{known}>",
                 Date=f"{day} May 2010 12:00:00 +0000") for day, sender, subject, known in MAILS))))
        self.loaded(1, "load-log", self.write("log", "2010-05-02 11:00 wort im log\n"))

    def numbers(self, *words):
        said = self.run_line(r"\A", "search", *words, "wort", status=None).stdout
        return " ".join(re.findall(r"(?m)^\d+(?=: )", said))

    def test_orders(self):
        for words, told in [
                ("", "2 5 3 1 4"), ("--newest", "4 1 3 5 2"), ("--sort newest", "4 1 3 5 2"),
                ("--sort oldest", "2 5 3 1 4"), ("--sort number", "1 2 3 4 5"),
                ("--sort from", "5 2 4 3 1"), ("--sort subject", "5 2 3 1 4"),
                ("--limit 2", "1 4"), ("--offset 1", "2 5 3 1"), ("--offset 1 --limit 2", "3 1"),
                ("--newest --limit 2", "4 1"), ("--newest --offset 3 --limit 9", "5 2"),
                ("--sort oldest --limit 2 --offset 1", "5 3"), ("--sort number --limit 2", "1 2"),
                ("--sort number --offset 4", "5"), ("--sort subject --limit 2", "5 2"),
                ("--offset 9", "")]:
            self.assertEqual(self.numbers(*words.split()), told, words)

    def test_one_hit_for_each_message_id(self):
        for words, told in [("", "5 3 1 4"), ("--newest", "4 1 3 5"), ("--sort oldest", "5 3 1 4"),
                            ("--limit 2", "1 4"), ("--newest --offset 3", "5"),
                            ("--sort number", "1 3 4 5"), ("--sort from", "5 4 3 1")]:
            self.assertEqual(self.numbers("--unique", *words.split()), told, words)
        self.run_line(r"\A4\n\Z", "search", "--unique", "--count", "--limit", "1", "wort")
        self.run_line(r"\A5\n\Z", "search", "--count", "--newest", "wort")

    def test_several_stores(self):
        other = self.folder / "t"
        shutil.copy(self.store, other)
        line = [*RUBEWOLA, "search", "--newest", "-s", self.store, "-s", other, "--limit", "3", "wort"]
        said = subprocess.run(line, check=True, capture_output=True, encoding="utf-8").stdout
        self.assertEqual(re.findall(r"(?m)^.*/(\w:\d+): ", said), ["t:4", "s:4", "t:1"])

    def test_the_day_of_each_kind(self):
        said = self.run_line(r"\A", "search", "--format", "json", "wort").stdout
        self.assertEqual([json.loads(line)["day"] for line in said.splitlines()],
                         [f"2010-05-0{day}" for day in (1, 2, 2, 3, 4)])

    def test_two_orders(self):
        self.run_line("--newest is an order", "search", "--newest", "--sort", "from", "wort",
                      status=2)
        self.run_line("is one of newest, oldest", "search", "--sort", "size", "wort", status=2)


if __name__ == "__main__":
    import unittest
    unittest.main()
