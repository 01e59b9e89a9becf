"""Queries as they are typed: fields, ranges of days, what is refused and what is told."""

import random
import re
import unittest
from datetime import date, datetime, timedelta

from rubewola import Store, days, queries, searching
from rubewola.days import EARLIER, LATER, day_words, words_of
from rubewola.errors import QueryRefused
from rubewola.words import NAMING, SIGN

from support import Stores, mail, mbox

TODAY = date(2026, 11, 26)
MOST = 1_381  # Bytes of the longest range of days.
MOST_HOURS = 1_779  # And of hours.


def read(typed, fields=()):
    """The program's query of what is typed, with $ for the letter of fields."""
    query = queries.read(typed, lambda name: name in fields, TODAY)
    return query.text.replace(SIGN, "$")


class Fields(unittest.TestCase):
    """What a field is, and what just looks as if it were one."""

    def test_fields(self):
        for typed, text in [
                ("from:ada", "$from_ada"), ("FROM:Ada x", "$from_ada x"), ("(to:a)", "($to_a)"),
                ("Subject:a-b OR c", "($subject_a $subject_b) OR c"), ("NOT cc:x", "NOT $cc_x"),
                ('subject:"red apple" x', '"$subject_red $subject_apple" x'),
                ('subject:"a (b) c"', '"$subject_a $subject_b $subject_c"'),
                ('subject:"a a"', '"$subject_a $subject_a"'), ("subject:a-a", "$subject_a"),
                ("from:ada*", "$from_ada*"),
                ("from:a-b*", "($from_a $from_b*)"), ("from:a-a*", "($from_a $from_a*)"),
                ('NOT subject:"red" OR a*', "NOT $subject_red OR a*"),
                ('to:"ada*"', "$to_ada"), ('list:deb*"a from:b"', '$list_deb*"a from:b"'),
                ("from:田中", "($from__7530 $from__4E2D)"), ("list:debian", "$list_debian"),
                ("attachment:a.pdf", "($attachment_a $attachment_pdf)"), ("id:<a@b>", "$$id_a_40b"),
                ("path:/m/new/x:2,S", "$$path__2Fm_2Fcur_2Fx"), ("date:2010", "$2010"),
                ("date:2010-5", "$201005"), ("Date:2010-05-14", "$20100514"),
                ("date:today", "$20261126"), ("date:yesterday", "$20261125"),
                ("date:7d", "$20261119"), ("date:2w..2026-11-13", "($20261112 OR $20261113)"),
                ("date:3d..today", "($20261123 OR $20261124 OR $20261125 OR $20261126)"),
                ("date:2010-05-14T23", "($20100514 $23)"), ("date:todayT9", "($20261126 $09)"),
                ("date:2010-05-14T14..15", "(($20100514 ($14 OR $15)))"),
                ("date:2010-05-14T22..2010-05-16T0",
                 "(($20100514 ($22 OR $23)) OR $20100515 OR ($20100516 $00))"),
                ("date:2010-05-14T0..23", "($20100514)"),
                ("date:2010-05-14T23..2010-05-15", "(($20100514 $23) OR $20100515)"),
                ("file:sys.log", "$$in_sys_2Elog"), ("file:sys*", "$$in_sys*"),
                ("line:7", "(($k0 ($l007)))"), ("line:1999..2001", "(($k1 ($l999)) OR ($k2 ($l000 OR $l001)))"),
                ("line:1000..2119", "($k1 OR ($k2 ($l0* OR $l10* OR $l11*)))"),
                ("unit:ssh.service", "($unit_ssh $unit_service)"), ("host:Web*", "$host_web*"),
                ("priority:err", "($priority_err)"), ("priority:3", "($priority_3 OR $priority_err)"),
                ("priority:..alert", "($priority_emerg OR $priority_alert)"),
                ("priority:urgent", "$priority_urgent"), ('priority:"very high"', '"$priority_very $priority_high"'),
                ("date:2010-11..2011-02-01", "($201011 OR $201012 OR $201101 OR $20110201)"),
                ("date:..1979", "($0 OR $197)"), ("date:2098..", "($2098 OR $2099 OR $9)")]:
            with self.subTest(typed):
                self.assertEqual(read(typed), text)

    def test_words_that_are_no_fields(self):
        for typed in ("http://x.org", "12:30", "std::vector", "a: b", ":", "::", "port:80", "x:-1",
                      "(a OR b) NOT c", "--", "a\u200bb", "é )", '"a from:b" c*', 'a"b c"d',
                      '"http://x', 'x "a (from:b', "fr*ze**"):
            with self.subTest(typed):
                self.assertEqual(read(typed), typed)

    def test_fields_of_json(self):
        self.assertEqual(read("Level:Error", ["level"]), "$level_error")
        self.assertEqual(read("http.status:500", ["http.status"]), "$http_status_500")
        self.assertEqual(read("port:80 http://x", ["port"]), "$port_80 http://x")
        self.assertEqual(read("line:7", ["line"]), "((($k0 ($l007))) OR $line_7)")
        self.assertEqual(read("file:a.c", ["file"]), "($$in_a_2Ec OR ($file_a $file_c))")

    def test_what_no_text_may_write(self):
        self.assertEqual(read(f"{SIGN}from_ada {NAMING}id_x"), "$\u200bfrom_ada $\u200b$\u200bid_x")
        self.assertEqual(read("cafe\u0301 un\xadseen"), "café unseen")
        self.assertEqual(read("cafe\xad\u0301 a\xad\u200d"), "café a")
        self.assertEqual(read(f"{SIGN}* {NAMING}-* {SIGN}a* x{SIGN}*"),
                         "$\u200b $\u200b$\u200b $\u200ba* x$\u200b*")
        self.assertEqual(read(f'"{SIGN}from_ada"'), '"$\u200bfrom_ada"')

    def test_refused_with_its_place(self):
        for typed, place, told in [
                ("a foo:bar", 2, '"foo" is no field'), ("tag:x", 0, "is no field"),
                ("(is:unread)", 1, "is no field"), ('body:"a b"', 0, "is no field"),
                ("from:", 5, "wants a value"), ("subject: freeze", 8, "wants a value"),
                ('x to:""', 5, "wants a value"), ('to:"a"b', 6, "right behind a quoted value"),
                ('to:"a"*', 6, "right behind a quoted value"), ('x to:"a b', 5, "nothing closes"),
                ('to:"', 3, "nothing closes"), ("from:*", 5, "has no word"),
                ("from:--", 5, "has no word"), ("date:May", 5, "a day is written"),
                ("date:2010-13", 5, "month must be"), ("date:2010-02-30", 5, "day"),
                ("date:05/14/2010", 5, "a day is written"), ("date:>2010", 5, "a day is written"),
                ("date:..", 5, "a day is written"), ("date:2011..2010", 5, "behind its end"),
                ("date:1900..2010", 5, "years from 1970 to 2099"), ("date:9999999w", 5, "day")]:
            with self.subTest(typed), self.assertRaises(QueryRefused) as caught:
                read(typed)
            self.assertEqual(caught.exception.place, place)
            self.assertIn(told, str(caught.exception))
            self.assertTrue(str(caught.exception).endswith(f"{typed}\n{' ' * place}^"))

    def test_what_is_told(self):
        for typed, place, told in [
                ("a and b", 2, "the operator is AND"), ("a Or b", 2, "is OR"),
                ("not a", 0, "is NOT"),
                ("x (a not b)", 5, "is NOT"), ('x "app* red"', 2, "between quotation marks"),
                ("x a*b", 2, "within a word"), ("a -b", 2, "NOT is the operator"),
                ("!a", 0, "NOT is the operator")]:
            with self.subTest(typed):
                note = queries.read(typed, lambda _: False, TODAY).notes[0]
                self.assertEqual(note.place, place)
                self.assertIn(told, note.text)
        for typed in ("and", "a AND b", "rock and", "or", "e-mail", "a NOT b", "not", "app*", "a**",
                      '"red apple"', '"a and b"', '"not"'):
            with self.subTest(typed):
                self.assertEqual(queries.read(typed, lambda _: False, TODAY).notes, [])

    def test_places_of_the_program(self):
        query = queries.read("from:a.b é OR )", lambda _: False, TODAY)
        byte = len(query.text.encode()) - 1
        self.assertEqual(query.place(byte), 14)
        self.assertEqual(query.place(byte + 1), 15)
        self.assertEqual(query.place(3), 0)


class Ranges(unittest.TestCase):
    """A range finds its days, each once, and is short."""

    def test_random_ranges(self):
        draw, most = random.Random(1), 0
        first, last = date(1970, 1, 1), date(2099, 12, 31)
        for _ in range(1_000):
            begin = first + timedelta(draw.randrange(47_482))
            end = min(begin + timedelta(int(draw.expovariate(1 / 4_000))), last)
            told = set(re.findall(r"\w+", days.query(f"{begin}..{end}", TODAY)))
            most = max(most, len(days.query(f"{begin}..{end}", TODAY).encode()))
            for day in (begin, end, begin - timedelta(1), end + timedelta(1),
                        first + timedelta(draw.randrange(47_482))):
                found = told & set(day_words(day.year, day.month, day.day))
                self.assertEqual(len(found), begin <= day <= end, (begin, end, day))
        self.assertLessEqual(most, MOST)

    def test_the_longest_range(self):
        self.assertLessEqual(len(days.query("1970-01-02..2099-12-30", TODAY).encode()), MOST)
        self.assertLessEqual(len(days.query("..2098-12-30", TODAY).encode()), MOST)
        self.assertLessEqual(len(days.query("1970-01-02..", TODAY).encode()), MOST)

    def test_random_ranges_of_hours(self):
        draw, first = random.Random(2), datetime(1990, 1, 1)
        for _ in range(300):
            begin = first + timedelta(hours=draw.randrange(200_000))
            end = begin + timedelta(hours=int(draw.expovariate(1 / 60)))
            text = days.query(f"{begin:%Y-%m-%dT%H}..{end:%Y-%m-%dT%H}", TODAY)
            self.assertLessEqual(len(text.encode()), MOST_HOURS)
            for hour in (begin, end, begin - timedelta(hours=1), end + timedelta(hours=1),
                         begin + (end - begin) / 2):
                held = {*words_of(hour)}
                meant = re.sub(r"\w+", lambda word: str(word[0] in held), text.replace("OR", "|"))
                meant = re.sub(r"(?<=[\w)]) (?=[\w(])", " and ", meant.replace("|", " or "))
                meant = re.sub(" +", " ", meant).replace("or and", "or").replace("and or", "or")
                self.assertEqual(eval(meant), begin <= hour <= end, (text, hour))
        longest = days.query("1970-01-01T01..2099-12-31T22", TODAY)
        self.assertEqual(len(longest.encode()), MOST_HOURS)

    def test_open_ranges_have_all_before_or_after(self):
        for year in (1, 1900, 1969):
            self.assertIn(EARLIER, day_words(year, 1, 1))
            self.assertIn(EARLIER, days.query("..1980", TODAY))
        for year in (2100, 9999):
            self.assertIn(LATER, day_words(year, 1, 1))
            self.assertIn(LATER, days.query("1980..", TODAY))


class Told(Stores):
    """What a search says and its status."""

    def setUp(self):
        super().setUp()
        days = ("Fri, 14 May 2010 23:30:00 +0000", "Sat, 1 Jan 2011 00:00:00 +0000")
        self.write("box", mbox(mail("eins", From="ada@x.org", Date=days[0]),
                               mail("zwei and", From="bo@x.org", Date=days[1])))
        self.loaded(2, "load-mbox", self.folder / "box")

    def test_lines_and_their_status(self):
        for query, status, told in [
                ("eins OR zwei --count", 0, r"\A2\n\Z"), ("drei", 1, r"\A\Z"),
                ("zwei and eins", 1, r'"and" is a word here; the operator is AND\n'
                                     r"zwei and eins\n {5}\^\n\Z"),
                ("zwei foo:bar", 2, r'"foo" is no field here.*\nzwei foo:bar\n {5}\^\n\Z'),
                ("date:2010-13", 2, r"no day: month must be in 1..12\ndate:2010-13\n {5}\^"),
                ("from:a.b é OR )", 2, r"a closing bracket without an opening one\nfrom:a.b é OR \)\n {14}\^\n"),
                ("eins )", 2, r" {5}\^\n"), ("--format paths date:2010..", 0, "1\n2\n")]:
            with self.subTest(query):
                self.run_line(told, "search", *query.split(), status=status)

    def test_ranges_find_mails(self):
        self.assert_found({"date:2010-05..2010-07": [1], "date:2011..": [2], "date:..2010": [1],
                           "date:2010-05-14..2011-01-01": [1, 2], "date:7d..": []})

    def test_a_store_of_an_earlier_client_is_told(self):
        self.store.unlink()
        with Store.create(self.store, 256) as store:
            store.add("x\n\n\n\n\n\n\neins\n\x1did_1_40x from_ada")
            store.commit()
        self.run_line("an earlier client", "search", "from:ada", status=1)
        self.run_line("\\A1: x", "search", "eins")
        self.run_line("load all into a new store", "load-mbox", self.folder / "box", status=2)

    def test_a_store_of_no_loader(self):
        self.store.unlink()
        with Store.create(self.store, 256) as store:
            store.add("eins")
            store.commit()
            self.assertEqual(searching.find(store, "from:ada"), [])
        self.run_line(r"\A\Z", "search", "from:ada", status=1)
        self.loaded(2, "load-mbox", self.folder / "box")
