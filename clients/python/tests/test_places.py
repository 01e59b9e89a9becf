"""Hours of mails and lines, files and lines of logs, and units, priorities and hosts of journals."""

import json
import os
import re
import unittest
from datetime import date

from rubewola import stamps

from support import Stores, mail, mbox

WRITTEN = date(2026, 3, 3)


class Hours(unittest.TestCase):
    """The hours of stamps."""

    def test_stamps(self):
        for line, hour in [
                ("2025-06-24 09:58:01 x", 9), ("2025-06-24T23:58", 23), ("2025-06-24 x", None),
                ("2025/06/24_07:00 x", 7), ("2025-06-24 24:00:00", None), ("2025-06-24 9:58", None),
                ("Mar  3 11:15:56 host x", 11), ("<34>Oct 11 22:14:15 x", 22),
                ("[Thu Nov 26 01:15:56.123 2009] [error]", 1), ("1273879800 x", 23),
                ("20100514T2330", 23), ('1.2.3.4 - - [10/Oct/2000:13:55:36 -0700] "GET', 13),
                ("web_1  | 2025-06-24T10:00:00Z x", 10)]:
            self.assertEqual(getattr(stamps.of_line(line, WRITTEN), "hour", None), hour, line)
        for value, hour in [("2010-05-14T23:30:00Z", 23), (1273879800, 23), ("2010-05-14", None)]:
            self.assertEqual(getattr(stamps.of_value(value), "hour", None), hour, value)


class Places(Stores):
    """Logs, a mailbox and a journal."""

    def lines(self, *words, status=0):
        said = self.run_line(r"\A", "search", *words, status=status).stdout
        return " ".join(re.findall(r"(?m)^\d+(?=: )", said))

    def test_hours_and_their_order(self):
        self.write("b", "2010-05-14 23:30:07 b\nMay 14 22:10:00 h b\n2010-05-14 b\n")
        self.write("a", "2010-05-14T23:29:59 a\n2010-05-14T23:30:00 a\n2010-05-15T00:01 a\n")
        box = self.write("box", mbox(mail("m", Date="Fri, 14 May 2010 23:29:00 +0000")))
        os.utime(self.folder / "b", (1_273_900_000,) * 2)
        self.loaded(6, "load-log", self.folder / "b", self.folder / "a")
        self.loaded(1, "load-mbox", box)
        for query, told in [
                ("date:2010-05-14T23", "7 4 5 1"), ("date:2010-05-14", "3 2 7 4 5 1"),
                ("date:2010-05-14T22..23 NOT m", "2 4 5 1"), ("date:2010-05-14T23..", "7 4 5 1 6"),
                ("date:..2010-05-14T22", "2"), ("date:2010-05-15T0", "6"),
                ("date:2010-05-14T10..2010-05-15T00 a", "4 5 6")]:
            self.assertEqual(self.lines(query), told, query)
        for limit, told in [("1", "6"), ("2", "7 6"), ("4", "7 4 5 6"), ("6", "2 7 4 5 1 6")]:
            self.assertEqual(self.lines("--limit", limit, "date:2010"), told)
        self.run_line("minutes are not known", "search", "date:2010-05-14T23:30", status=2)

    def test_files_and_lines(self):
        log = self.write("var/My-app.log", "".join(f"zeile{at}\n" for at in range(1, 2_504)))
        self.loaded(2_503, "load-log", log)
        with open(log, "a", encoding="utf-8") as more:
            more.write("nach\n")
        self.loaded(1, "load-log", log)
        self.loaded(1, "load-log", self.write("other.log", "zeile3\n"))
        self.assert_found({
            "line:1": [1, 2_505], "line:1 file:other.log": [2_505], "line:2504": [2_504],
            "line:999..1001": [999, 1_000, 1_001], "file:My-app.log nach": [2_504],
            "file:my-app.log": [], "file:My* zeile3": [3], "zeile3 NOT file:My*": [2_505],
            "line:1000..1999 zeile12*": [*range(1_200, 1_300)]})
        said = self.run_line(r"\A", "search", "--format", "json", "nach").stdout
        self.assertEqual(json.loads(said), {"number": 2_504, "file": "My-app.log", "line": 2_504,
                                            "text": "nach"})
        self.run_line(r"\A2504: nach\n    My-app\.log:2504\n\Z", "search", "--context", "nach")
        self.run_line("a line is written", "search", "line:2503..", status=2)

    def test_journals(self):
        entries = [{"__CURSOR": f"c{at}", "__REALTIME_TIMESTAMP": f"{1_273_879_800 + at}000000",
                    "MESSAGE": f"wort{at}", "PRIORITY": str(at), "_HOSTNAME": f"web-{at % 2}",
                    "_SYSTEMD_UNIT": "ssh.service" if at < 4 else "cron.service"} for at in range(8)]
        entries += [{"__CURSOR": "x", "MESSAGE": "y", "__REALTIME_TIMESTAMP": "1", "PRIORITY": [9],
                     "_HOSTNAME": ["a"], "_SYSTEMD_UNIT": {"a": "b"}, "UNIT": 3}]
        log = self.write("journal", "".join(json.dumps(entry) + "\n" for entry in entries))
        self.loaded(9, "load-journal", log)
        self.assert_found({
            "unit:ssh": [1, 2, 3, 4], "unit:cron.service host:web-1": [6, 8], "priority:err": [4],
            "priority:3": [4], "priority:..crit": [1, 2, 3], "priority:notice..6": [6, 7],
            "host:web NOT unit:ssh": [5, 6, 7, 8], "date:2010-05-14T23": [*range(1, 9)]})

    def test_fields_of_json_stay(self):
        log = self.write("json", '{"file": "main.c", "line": 7, "host": "a.b", "priority": "high"}\n')
        self.loaded(1, "load-json", log)
        self.assert_found({"file:main.c": [1], "line:7": [1], "host:a": [1], "priority:high": [1],
                           "line:1": [], "file:json": []})


if __name__ == "__main__":
    unittest.main()
