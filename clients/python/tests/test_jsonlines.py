"""Lines of JSON and journals."""

import json
from unittest import mock

from rubewola import jsonlines
from rubewola.jsonlines import JsonLines
from rubewola.words import field_name

from support import Stores

ENTRY = b'{"__CURSOR":"s=1;i=%d","__REALTIME_TIMESTAMP":"1273879800000000","MESSAGE":%s}\n'


class Json(Stores):
    """Lines of JSON, whose names are fields."""

    def lines(self, *values):
        return self.write("log", "".join(json.dumps(value) + "\n" for value in values))

    def test_strings_are_decoded_and_names_are_fields(self):
        self.loaded(3, "load-json", self.lines(
            {"level": "error", "msg": "Jörg said\n\traise", "time": "2010-05-14T23:30:00Z"},
            {"Level": "info", "http": {"status": 500, "path": "/index"}, "ts": 1273879800},
            {"level": ["warn", "error"], "ok": True, "none": None, "tags": [{"name": "a b"}]}))
        self.assert_found({
            "jörg raise": [1], "level:error": [1, 3], "level:info": [2],
            "LEVEL:Error NOT jörg": [3],
            "http.status:500": [2], "msg:raise": [1], "date:2010-05-14": [1, 2], "ok:true": [3],
            "tags.name:b": [3], "none:null": [3], 'tags.name:"a b"': [3], "status 500": [2]})
        self.run_line('"nosuch" is no field', "search", "nosuch:error", status=2)
        self.run_line(r"(?m)^1: level: error msg: Jörg said", "search", "level:error")

    def test_no_line_writes_what_loaders_write(self):
        self.loaded(2, "load-json", self.lines(
            {"first": "x", "read": "9_abc", "file": "/log", "kind": "mbox", "sum": "1",
             "from": "ada", "id": "ab-c", "path": "/m/cur/1000.a.h", "date": "2010-05-14",
             "\u01bb\u01bbread": "1_x"},
            {"to": "bo"}))
        self.write("m/cur/1000.a.h:2,S", b"From: mail@x\n\n")
        self.assert_found({"from:ada": [1], "id:ab-c": [1], "to:bo": [2], "date:2010": [1],
                           "first:x": [1], "path:/m/cur/1000.a.h": [1]})
        self.loaded(1, "load-maildir", self.folder / "m")
        self.loaded(0, "load-json", self.folder / "log")

    def test_a_log_of_json_grows_and_rotates(self):
        log = self.lines({"n": 1})
        self.loaded(1, "load-json", log)
        with open(log, "ab") as more:
            more.write(b'{"n": 2}\n{"n":')
        self.run_line("waits for the next load", "load-json", log)
        with open(log, "ab") as more:
            more.write(b' 3}\n')
        log.rename(self.folder / "log.1")
        self.loaded(2, "load-json", self.lines({"n": 4}))
        self.assert_found({"n:3": [3], "n:4": [4]})

    def test_broken_lines_stand_as_they_are(self):
        log = self.write("log", b'{"a": "eins"}\nkaputt {"a"\n[1]\n' + b"[" * 99_999 + b"\n\n")
        self.run_line(r"loaded 5 documents \(3 unreadable\)", "load-json", log)
        self.assert_found({"a:eins": [1], "kaputt": [2]})

    def test_halves_of_pairs(self):
        log = self.write("log", b'{"id": "\\ud800", "path": "a\\udfff"}\n{"id": "b", "x": 1e999}\n')
        self.run_line(r"^loaded 2 documents in", "load-json", log)
        self.assert_found({"id:b": [2]})

    def test_a_line_that_ends_its_reader(self):
        def as_text(value, whole=jsonlines._as_text):
            if "zwei" in value:
                raise KeyError(value)
            return whole(value)
        log = self.write("log", b'{"eins": 1}\n{"zwei": 2}\n{"drei": 3}\n')
        with mock.patch.object(jsonlines, "_as_text", as_text):
            self.run_line(r"^loaded 3 documents \(1 unreadable\)", "load-json", log)
        self.assert_found({"drei:3": [3], "zwei": [2], '"not read" KeyError': [2]})

    def test_what_is_no_json(self):
        for data in (b"Nov 26 11:15:56 host x\n", b'[{"a": 1},\n', b'"text"\n'):
            self.run_line("no lines of JSON", "load-json", self.write("log", data), status=2)
        self.assertFalse(self.store.exists())

    def test_names_of_fields(self):
        for name, told in [("Level", "level"), ("@timestamp", "timestamp"), ("--", ""),
                           ("http.status", "http_status"), ("_a--b_", "a_b"), ("\u01bbx", "x"),
                           ("Größe", "grösse")]:
            self.assertEqual(field_name(name), told)

    def test_deep_values(self):
        value = {"a": 1}
        for _ in range(200):
            value = {"b": value}
        self.loaded(1, "load-json", self.lines(value))
        self.assertEqual(JsonLines.kind, "json")


class Journals(Stores):
    """Journals, whose entries are known by their cursors."""

    def test_what_is_absent_is_added_in_any_order(self):
        texts = [b'"login failed"', b"[104, 195, 169]", b"broken", b"null", b'"new"']
        lines = [ENTRY % numbered for numbered in enumerate(texts)]
        for taken, new in [(lines[1:3], 2), (lines[:4], 2), (lines[4:], 1), (lines, 0)]:
            self.loaded(new, "load-journal", self.write("j", b"".join(taken)))
        self.assert_found({"login": [3], "hé": [1], "date:2010-05": [1, 3, 4, 5], "new": [5]})

    def test_bytes_that_are_none(self):
        lines = [ENTRY % numbered for numbered in enumerate((b"[1e999]", b"[NaN]", b"[-1]", b'"wort"'))]
        self.loaded(4, "load-journal", self.write("j", b"".join(lines)))
        self.assert_found({"wort": [4], "date:2010": [1, 2, 3, 4]})

    def test_two_journals_and_standard_input(self):
        one, two = (self.write(name, ENTRY % (number, b'"gleich"')) for number, name in
                    enumerate(("a", "b")))
        self.loaded(2, "load-journal", one, two, one)
        self.run_line("loaded 1 ", "load-journal", "-", input=(ENTRY % (9, b'"drei"')).decode())

    def test_what_is_no_journal(self):
        for data in (b"Nov 26 11:15:56 host x\n", b'{"a": 1}\n', b"LPKSHHRH"):
            self.run_line("journalctl -o json", "load-journal", self.write("j", data), status=2)
        self.assertFalse(self.store.exists())
