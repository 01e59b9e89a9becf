"""The page, over HTTP: what it shows, and each rule by what it refuses."""

import os
import re
import signal
import subprocess
import threading
import time
import unittest
from collections import Counter
from concurrent.futures import ThreadPoolExecutor
from contextlib import ExitStack
from unittest import mock
from urllib.parse import unquote_plus

from rubewola import Reader, Store, marks, markup, serving, sessions, views, words
from rubewola.commands import COMMANDS, Given

from pages import Page
from support import LONG, RUBEWOLA, Stores, mail, mbox, older, reads

EVIL = '"><script>alert(1)</script><img src=x onerror=y>\'&amp;'
STEERING = "\u200e\u200f\u202a\u202b\u202c\u202d\u202e\u2066\u2067\u2068\u2069"
MONTHS = "Jan Feb Mar Apr May Jun Jul Aug Sep Oct Nov Dec".split()


def sent(number, body="wort", **fields):
    """A mail of a day of 2010, of which four have a month each, from January on."""
    month, day = divmod(number, 4)
    head = {"From": "Ada <a@x>", "Subject": f"s{number}", "Message_ID": f"<{number}@x>",
            "Date": f"{day + 1:02} {MONTHS[month]} 2010 12:00:00 +0000"}
    return mail(body, **{**head, **fields})


class Pages(Stores):
    """A store with a few mails, and its page."""

    def setUp(self):
        super().setUp()
        self.loaded(5, "load-mbox", self.write("box", mbox(
            sent(0), sent(9, "Wort und WORT, kein Ort"),
            sent(4, EVIL + " wort", Subject=EVIL, To=EVIL), sent(5, "wort \u05d0\u05d1"),
            sent(1, "nichts <b>"))))
        self.page = Page(self, self.store)


class Shown(Pages):
    """What is shown."""

    def hits(self, query, start=0, page=None):
        """The numbers of a page's hits, as they stand."""
        answer = (page or self.page).find(query, start)
        self.assertEqual(answer.status, 200)
        return [*map(int, re.findall(r"/doc/0/(\d+)\?", answer.body))]

    def test_hits_the_newest_first(self):
        self.assertEqual(self.hits("wort"), [2, 4, 3, 1])
        self.assertIn("<h2>4 found</h2>", self.page.find("wort").body)
        self.assertEqual(self.hits("nirgends"), [])
        self.assertIn("<h2>0 found</h2>", self.page.find("nirgends").body)

    def test_marked_words(self):
        tags = self.page.tags(self.page.find("WORT NOT s0"))
        self.assertEqual(Counter(tags.marked), {"wort": 2, "Wort": 1, "WORT": 1})
        tags = self.page.tags(self.page.ask("doc/0/2?q=wort"))
        self.assertEqual(tags.marked, ["Wort", "WORT"])
        for query, words in ("", []), ("?q=", []), ("?q=s9+AND", ["s9"]), ("?q=nofield:x+s9", []):
            answer = self.page.ask(f"doc/0/2{query}")
            self.assertEqual((answer.status, self.page.tags(answer).marked), (200, words))

    def test_a_document(self):
        told = self.page.ask("doc/0/2").body
        for text in ("Document 2", "Ada &lt;a@x&gt;", "s9", "2010-03-02", "9@x", "Wort und WORT"):
            self.assertIn(text, told)
        with mock.patch.object(views, "LONGEST", 4):
            told = self.page.ask("doc/0/2").body
        self.assertIn("<pre>Wort</pre><p>The first 4 of ", told)
        for rest in ("doc/0/6", "doc/0/0", "doc/1/1", "doc/0/x", "doc/0/-1", "doc/0", "doc/0/1/1",
                     "doc/0/4294967295", "nothing", "../../etc/passwd", "style.css/"):
            self.assertEqual(self.page.ask(rest).status, 404, rest)

    def test_bars_of_months(self):
        links = self.page.tags(self.page.find("wort OR nichts")).links
        months = [unquote_plus(one.partition("?q=")[2]) for one in links if "?q=%28" in one]
        self.assertEqual(months, [f"(wort OR nichts) date:2010-0{at}" for at in (1, 2, 3)])
        for month, numbers in zip(months, ([5, 1], [4, 3], [2])):
            self.assertEqual(self.hits(month), numbers)
            self.assertNotIn("<svg", self.page.find(month).body)
        self.assertIn("<title>2010-01: 2</title>", self.page.find("wort OR nichts").body)

    def test_bars_ask_the_query_once(self):
        self.page.find("wort")  # From now on the months of the documents are known.
        with mock.patch.object(Reader, "_ask_all", autospec=True,
                               side_effect=Reader._ask_all) as asks:
            self.assertIn("<title>2010-01: 2</title>", self.page.find("wort OR nichts").body)
        lines = [line for call in asks.call_args_list for line in [str(call)]]
        self.assertLessEqual(len(lines), 5)

    def test_headings_and_labels(self):
        for body in (self.page.find("wort").body, self.page.ask("").body):
            self.assertRegex(body, r"<h1>Search")
            self.assertRegex(body, r'<label for="query">Query</label><input type="search" id="query"')
        links = self.page.tags(self.page.find("wort")).links
        self.assertIn("doc/0/", links[1])  # Behind the style alone; bars stand behind the hits.

    def test_neighbours_of_a_line(self):
        self.store = self.folder / "t"
        self.loaded(9, "load-log", self.write("log", "".join(f"zeile{at}\n" for at in range(9))))
        page = Page(self, self.store)
        body = page.ask("doc/0/5").body
        for at, told in ((1, True), (2, True), (6, True), (7, True), (0, False), (8, False)):
            self.assertEqual(f"zeile{at}" in body, told, at)
        links = page.tags(page.ask("doc/0/5?q=x")).links
        self.assertEqual([re.sub(".*/doc", "doc", one) for one in links if "/doc/" in one],
                         [f"doc/0/{at}?q=x#around" for at in (2, 3, 4, 6, 7, 8)])

    def test_neighbours_are_of_the_same_log(self):
        self.store = self.folder / "t"
        self.loaded(2, "load-log", self.write("log", "zeile0\nzeile1\n"))
        self.loaded(1, "load-mbox", self.write("one", mbox(mail("fremd", Subject="fremdes"))))
        self.loaded(1, "load-json", self.write("json", '{"text": "fremd"}\n'))
        page = Page(self, self.store)
        body = page.ask("doc/0/2").body
        self.assertIn("zeile0", body)
        self.assertNotIn("fremd", body)
        self.assertNotIn("Lines round it", page.ask("doc/0/4").body)

    def test_a_hit_shows_its_file_and_its_line(self):
        shown = views.Views([str(self.store)], "/x/")
        doc = {"number": 7, "store": "0", "text": "wort", "file": "/var/log/<sys>", "line": 12}
        hit = shown._hit(doc, "wort", marks.Marks([]))
        self.assertIn("<bdi>/var/log/&lt;sys&gt;:12</bdi>", hit)
        del doc["file"], doc["line"]
        self.assertIn('<span class="who"></span>', shown._hit(doc, "wort", marks.Marks([])))

    def test_bars_of_many_years(self):
        counts = {f"{year}{month:02}": int(year % 7 == 0 and month == 3)
                  for year in range(1970, 2100) for month in range(1, 13)}
        drawn = markup.drawn(counts, lambda month: f"/{month}")
        self.assertEqual(drawn.count("<a "), sum(counts.values()))
        self.assertLessEqual(drawn.count("<text "), 12)
        edges = [float(left) + float(wide) for left, wide in
                 re.findall(r'<rect x="(.+?)" y=".+?" width="(.+?)"', drawn)]
        self.assertLessEqual(max(edges), markup.WIDTH)

    def test_twenty_a_page(self):
        days = [f"2010-05-{at % 3 + 10} wort" for at in range(50)]
        self.store = self.folder / "t"
        self.loaded(50, "load-log", self.write("log", "\n".join(days) + "\n"))
        page = Page(self, self.store)
        found = [self.hits("wort", start, page) for start in (0, 20, 40, 60)]
        self.assertEqual([*map(len, found)], [20, 20, 10, 0])
        self.assertEqual([number for numbers in found for number in numbers],
                         sorted(range(1, 51), key=lambda number: ((number - 1) % 3, number))[::-1])
        texts = [re.sub("<.*?>", "", re.search("<nav>.*", page.find("wort", start).body)[0])
                 for start in (0, 20, 40)]
        self.assertEqual(texts, ["1 to 20 · older", "newer · 21 to 40 · older",
                                 "newer · 41 to 50"])
        for start in ("x", "-1", "1" * 99, "²", ""):
            self.assertIn("1 to 20 ·", page.ask(f"?q=wort&start={start}").body)

    def test_several_stores(self):
        other = self.folder / "t"
        log = self.write("log", "2010-03-01 wort\n2010-04-01 wort\nwort\n2010-01-01 wort\n")
        with mock.patch.object(self, "store", other):
            self.loaded(4, "load-log", log)
        page = Page(self, self.store, other)
        found = page.find("wort")
        self.assertEqual(re.findall(r"/doc/(\d/\d+)\?", found.body),
                         ["1/2", "0/2", "1/1", "0/4", "0/3", "0/1", "1/4", "1/3"])
        self.assertIn("<title>2010-01: 2</title>", found.body)
        self.assertEqual(found.body.count(str(other)), 4)
        self.assertIn("2010-04-01", page.ask("doc/1/2").body)

    def test_what_a_query_does_not_mean(self):
        for query, status, told in [
                ("wort and ort", 200, "the operator is AND"), ("wort AND", 400, "query"),
                ("(" * 100 + "a", 400, "query"), ("a " * 2_500, 400, "query"),
                ("nofield:x", 400, "is no field"), ("date:x", 400, "no day"), ("\0", 400, "query"),
                ("a\ndelete 1\nquit", 200, "0 found"), ("\ufffd", 400, "query")]:
            answer = self.page.find(query)
            self.assertEqual(answer.status, status, query)
            self.assertIn(told, answer.body)
        self.assertEqual(self.page.ask("?q=%ED%A0%80+%FF").status, 400)

    def test_the_first_page(self):
        for rest in ("", "?q=", "?q=+%0A"):
            answer = self.page.ask(rest)
            self.assertEqual((answer.status, self.page.tags(answer).bad), (200, []))
            self.assertIn(str(self.store), answer.body)


class Rules(Pages):
    """Each rule, by what it refuses."""

    def test_hosts(self):
        port = self.page.port
        for host in ("127.0.0.1", "localhost", "[::1]"):
            self.assertEqual(self.page.ask(host=f"{host}:{port}").status, 200)
        for host in ("evil.example", f"evil.example:{port}", "127.0.0.1", f"[::1]:{port}x", "",
                     f"127.0.0.1:{port}.evil.example", f"LOCALHOST.evil:{port}",
                     f"127.0.0.1:{port + 1}"):
            self.assertEqual(self.page.ask(host=host).status, 421, host)
        twice = f"Host: evil.example:{port}\r\n"
        self.assertEqual(self.page.ask(head=twice).status, 421)
        nobody = f"GET {self.page.top} HTTP/1.0\r\n\r\n".encode()
        self.assertEqual(self.page.raw(nobody).status, 421)

    def test_it_listens_on_loopback_alone(self):
        self.assertEqual(self.page.server.socket.getsockname(), ("127.0.0.1", self.page.port))

    def test_other_sites(self):
        for site, status in (("cross-site", 403), ("same-site", 403), ("x", 403), ("none", 200),
                             ("same-origin", 200), ("none\r\nSec-Fetch-Site: cross-site", 403)):
            answer = self.page.ask("?q=wort", f"Sec-Fetch-Site: {site}\r\n")
            self.assertEqual(answer.status, status, site)

    def test_methods(self):
        for method in ("POST", "PUT", "DELETE", "OPTIONS", "CONNECT", "TRACE", "PATCH", "get", "X"):
            answer = self.page.ask(method=method)
            self.assertEqual(answer.status, 405, method)
            self.assertIn("Allow: GET, HEAD", answer.head)
        whole, head = self.page.ask("doc/0/1"), self.page.ask("doc/0/1", method="HEAD")
        self.assertEqual((head.status, head.body), (200, ""))
        self.assertIn(f"Content-Length: {len(whole.body.encode())}", head.head)

    def test_the_secret(self):
        self.assertGreaterEqual(len(self.page.server.secret), 22)
        other = Page(self, self.store)
        self.assertNotEqual(other.top, self.page.top)
        for path in ("/", "/style.css", "/favicon.ico", other.top, self.page.top[:-1], "//", "*",
                     self.page.top.upper(), self.page.top[:-2] + "/", "/%C3%A9/", "/\u00e9/",
                     "//[/", f"http://127.0.0.1:{self.page.port}{self.page.top}"):
            for rest in ("", "?q=wort"):
                answer = self.page.ask(path=path + rest)
                self.assertEqual((answer.status, answer.body), (404, "nothing is here\n"), path)

    def test_headers(self):
        wanted = {f"{name}: {value}" for name, value in serving.HEADERS.items()}
        self.assertIn("Content-Security-Policy: default-src 'none'; style-src 'self'; "
                      "form-action 'self'; base-uri 'none'; frame-ancestors 'none'", wanted)
        for line in ("X-Content-Type-Options: nosniff", "Referrer-Policy: no-referrer",
                     "Cache-Control: no-store", "Cross-Origin-Opener-Policy: same-origin",
                     "Cross-Origin-Resource-Policy: same-origin", "X-Frame-Options: DENY"):
            self.assertIn(line, wanted)
        ask, find = self.page.ask, self.page.find
        for answer in (ask(), find("wort"), find("a AND"), ask("style.css"), ask("doc/0/1"),
                       ask("doc/0/9"), ask(path="/"), ask(host="x"), ask(method="PUT"),
                       ask(head="Sec-Fetch-Site: x\r\n"), self.page.raw(b"nonsense\r\n\r\n"),
                       ask("?" + "&".join(["q=a"] * 99))):
            self.assertLessEqual(wanted, {*answer.head.split("\r\n")}, answer.head)
            self.assertIn("Server: rubewola\r\n", answer.head)

    def test_escapes(self):
        pages = [self.page.find(query) for query in ("wort", "NOT xyzzy", EVIL, f"a AND {EVIL}")]
        pages += [self.page.ask(f"doc/0/{number}?q=script+alert+img") for number in range(1, 6)]
        seen = 0
        for answer in pages:
            tags = self.page.tags(answer)
            self.assertEqual(tags.bad, [])
            seen += tags.seen
        self.assertGreater(seen, 200)
        self.assertIn("&lt;script&gt;", pages[0].body)
        name = self.folder / EVIL.replace("/", "")
        self.store.rename(name)
        other = Page(self, name)
        self.assertEqual(other.tags(other.ask()).bad, [])

    def test_bidirectional_text(self):
        # A loader would leave these signs out, another program need not.
        head = "\n".join([f"{STEERING}a", "", "", f"x{STEERING}y", "2010-05-05", ""])
        with Store(self.store) as store:
            number = store.add(f"{head}\nwort {STEERING}\n\x1d{words.SIGN}mbox")
            store.commit()
        pages = [self.page.find("wort"), self.page.ask(f"doc/0/{number}"),
                 self.page.find(STEERING + " wort")]
        for answer in pages:
            self.assertFalse(set(answer.body) & set(STEERING))
        self.assertRegex(pages[0].body, "><bdi>x +y</bdi></a> <span class=\"who\">2010-05-05 <bdi>")
        self.assertRegex(pages[1].body, "<dd><bdi>x +y</bdi></dd>")
        # Each line of a document has the direction of its own letters.
        self.assertRegex(self.page.ask("style.css").body, r"pre \{[^}]*unicode-bidi: plaintext")

    def test_long_and_broken_requests(self):
        host = f"Host: 127.0.0.1:{self.page.port}\r\n"
        for line, statuses in [
                (f"GET {self.page.top}?q={'a' * 70_000} HTTP/1.0\r\n{host}\r\n", (414, 0)),
                (f"GET {self.page.top} HTTP/1.0\r\n{host}X: {'a' * 70_000}\r\n\r\n", (431, 0)),
                (f"GET {self.page.top} HTTP/1.0\r\n{host}" + "X: a\r\n" * 200 + "\r\n", (431, 0)),
                (f"GET {self.page.top}?{'q=a&' * 9} HTTP/1.0\r\n{host}\r\n", (400,)),
                (f"GET {self.page.top} HTTP/7.0\r\n{host}\r\n", (505,)),
                (f"GET {self.page.top} HTTP/x\r\n{host}\r\n", (400,)),
                (f"GET  HTTP/1.0\r\n{host}\r\n", (400, 404)), ("GET\r\n\r\n", (400,)),
                ("\0\0\0\0\r\n\r\n", (400,)), ("\r\n", (0,)), ("", (0,)),
                (f"GET {self.page.top}?q=%0d%0aX:%201 HTTP/1.0\r\n{host}\r\n", (200,)),
                (f"GET {self.page.top}\r\n\r\n", (421,))]:
            with self.page.line() as client:
                client.sendall(line.encode())
                client.shutdown(1)
                answer = self.page.all_of(client)
            self.assertIn(answer.status, statuses, line[:80])
            self.assertNotIn("X: 1", answer.head)
        self.assertEqual(self.page.ask().status, 200)

    def test_idle_clients(self):
        with mock.patch.object(serving.Handler, "timeout", 0.3):
            idle = [self.page.line() for _ in range(50)]
            self.assertEqual(self.page.find("wort").status, 200)
            for line in idle:
                with line:
                    self.assertEqual(self.page.all_of(line).status, 0)  # It is closed.
        self.assertEqual(serving.IDLE, 10)

    def test_clients_that_take_too_long(self):
        with mock.patch.object(serving, "LONGEST", 0.5), self.page.line() as line:
            begin = time.monotonic()
            while time.monotonic() < begin + LONG:
                try:
                    line.sendall(b"G")
                    time.sleep(0.05)
                    if not self.page.server._clients:
                        break
                except OSError:
                    break
            self.assertLess(time.monotonic(), begin + LONG)

    def test_too_many_clients(self):
        with mock.patch.object(serving, "CLIENTS", 5):
            held = [self.page.line() for _ in range(5)]
            end = time.monotonic() + LONG
            while len(self.page.server._clients) < 5 and time.monotonic() < end:
                time.sleep(0.01)
            self.assertEqual(self.page.ask().status, 0)
            for line in held:
                line.close()
            while self.page.ask().status != 200 and time.monotonic() < end:
                time.sleep(0.01)
        self.assertEqual(self.page.ask().status, 200)

    def test_a_fault_is_told_without_the_query(self):
        with mock.patch.object(views.Views, "view", side_effect=ValueError("geheim")), \
                mock.patch.object(serving, "tell") as tell:
            self.assertEqual(self.page.find("geheim").status, 0)
        tell.assert_called_once_with("a request met a fault: ValueError")

    def test_a_store_in_use(self):
        """An older program has no session that only reads, so a store may be in use."""
        with older(self.folder):
            self.assertEqual(self.page.find("wort").status, 200)
            with mock.patch.object(sessions, "TURN", 0.1), Store(self.store):
                for answer in (self.page.find("wort"), self.page.ask("doc/0/1")):
                    self.assertEqual(answer.status, 503)
                    self.assertIn("Retry-After: ", answer.head)
                    self.assertIn("The store is busy", answer.body)
            self.assertEqual(self.page.find("wort").status, 200)

    def test_a_queue_that_is_too_long(self):
        own, = self.page.server.views._sessions
        with mock.patch.object(sessions, "TURN", 0.1), ExitStack() as stack:
            for _ in range(sessions.MOST):
                stack.enter_context(own.one())
            self.assertEqual(self.page.find("wort").status, 503)
        self.assertEqual(self.page.find("wort").status, 200)

    def test_a_store_that_is_gone(self):
        self.store.unlink()
        self.assertEqual(self.page.find("wort").status, 500)

    def test_nothing_is_changed(self):
        before = self.store.read_bytes()
        for rest in ("", "?q=wort", "doc/0/1", "?q=a%0Aadd+b%0Acommit", "doc/0/1?q=x%0Adelete+1"):
            self.page.ask(rest)
        self.assertEqual(self.store.read_bytes(), before)


@unittest.skipUnless(reads(), "wants a program with `read`")
class Kept(Pages):
    """The sessions that the page keeps open."""

    def open(self):
        """The sessions that are open and that nobody uses."""
        own, = self.page.server.views._sessions
        return [reader for reader, _ in own._free]

    def test_one_session_answers_all(self):
        self.page.find("wort")
        kept, = self.open()
        for query in ("nichts", "wort", "subject:s1"):
            self.assertEqual(self.page.find(query).status, 200)
            self.assertEqual(self.open(), [kept])
        self.assertEqual(self.page.ask("doc/0/1").status, 200)
        self.assertEqual(self.open(), [kept])

    def test_eight_requests_at_once(self):
        with Store(self.store), ThreadPoolExecutor(8) as pool:  # A lock keeps none of them off.
            answers = [*pool.map(self.page.find, ["wort", "nichts"] * 16)]
        self.assertEqual({answer.status for answer in answers}, {200})
        counts = Counter(re.findall("<h2>(.*?)</h2>", " ".join(one.body for one in answers)))
        self.assertEqual(counts, {"4 found": 16, "1 found": 16})
        self.assertLessEqual(len(self.open()), sessions.MOST)
        with mock.patch.object(sessions, "IDLE", 0):
            self.page.server.views.end_idle()
        self.assertEqual(len(self.open()), 1)

    def test_a_session_that_is_killed(self):
        self.page.find("wort")
        kept, = self.open()
        kept._program.kill()
        self.assertEqual(self.page.find("wort").status, 200)
        self.assertNotEqual(self.open(), [kept])

    def test_a_session_that_is_killed_while_it_answers(self):
        def ask(reader, lines, *given, **named):
            if not killed:
                killed.append(reader)
                reader._program.kill()
            return before(reader, lines, *given, **named)
        killed, before = [], Reader._ask_all
        self.page.find("wort")
        with mock.patch.object(Reader, "_ask_all", ask):
            self.assertIn("4 found", self.page.find("wort").body)
        self.assertEqual(len(killed), 1)
        self.assertNotEqual(self.open(), killed)

    def test_what_is_new_is_found(self):
        self.page.find("wort")
        kept, = self.open()
        with Store(self.store) as writer:
            writer.add("wort neu")
            writer.delete(1)
            writer.commit()
            self.assertIn("<h2>4 found</h2>", self.page.find("wort").body)
            self.assertEqual(self.page.ask("doc/0/1").status, 404)
            self.assertEqual(self.page.ask("doc/0/6").status, 200)
        self.assertEqual(self.open(), [kept])

    def test_a_store_that_is_replaced(self):
        self.assertIn("<h2>4 found</h2>", self.page.find("wort").body)
        other = self.folder / "other"
        with Store.create(other, 64) as writer:
            writer.add("wort und noch eines")
            writer.commit()
        os.replace(other, self.store)
        self.assertIn("<h2>1 found</h2>", self.page.find("wort").body)
        self.assertIn("noch eines", self.page.ask("doc/0/1").body)


class Served(Stores):
    """The command."""

    def started(self, *words):
        """A server, and its address."""
        server = self.start("serve", *words)
        self.addCleanup(server.communicate)
        self.addCleanup(server.kill)
        return server, server.stdout.readline().strip()

    def test_the_command(self):
        Store.create(self.store, 64).close()
        server, address = self.started()
        self.assertRegex(address, r"\Ahttp://127\.0\.0\.1:\d+/[\w-]{22}/\Z")
        server.send_signal(signal.SIGINT)
        told, errors = server.communicate(timeout=LONG)
        self.assertEqual((told, server.returncode), ("", 130))
        self.assertIn("open this address", errors)
        port = address.split(":")[2].split("/")[0]
        _, again = self.started("--port", port)
        self.assertTrue(again.startswith(f"http://127.0.0.1:{port}/"))
        self.assertNotEqual(again, address)
        self.run_line("Address already in use", "serve", "--port", port, status=2)
        self.run_line("at most 65535", "serve", "--port", "65536", status=2)
        self.run_line("missing", "serve", self.folder / "none", status=2)
        bare = subprocess.run([*RUBEWOLA, "serve"], capture_output=True, encoding="utf-8",
                              check=False, env={**os.environ, "RUBEWOLA_STORE": ""})
        self.assertEqual(bare.returncode, 2)
        self.assertIn("usage: rubewola serve [--port N] STORE [STORE ..]", bare.stderr)

    def test_its_words_are_stores(self):
        for named in ("", "other"):
            with mock.patch.dict(os.environ, {"RUBEWOLA_STORE": named}):
                for line, stores in [(["a"], ["a"]), (["a", "b"], ["a", "b"]),
                                     (["-s", "x", "--port", "9", "a"], ["x", "a"])]:
                    given = Given(COMMANDS["serve"], line)
                    self.assertEqual((given.stores, given.words), (stores, []))
                if named:
                    self.assertEqual(Given(COMMANDS["serve"], []).stores, ["other"])

    def test_many_requests_beside_a_load(self):
        """2,000 requests, of which each is answered as it should be; then the server has no more files
        open than its sessions have, and all is there."""
        Store.create(self.store, 65_536).close()
        self.loaded(9, "load-mbox", self.write("first", mbox(*map(sent, range(9)))))
        box = self.write("box", mbox(*(sent(at % 48, f"wort{at} {'fuell ' * 50}",
                                            Message_ID=f"<n{at}@x>") for at in range(3_000))))
        server, address = self.started()
        page = Page.__new__(Page)
        page.port, page.top = int(re.search(r":(\d+)/", address)[1]), "/" + address.split("/", 3)[3]
        kinds = [("?q=wort", {}, 200), ("doc/0/3?q=wort", {}, 200), ("?q=a+AND", {}, 400),
                 ("", {}, 200), ("style.css", {}, 200), ("", {"path": "/x/"}, 404),
                 ("", {"host": "x"}, 421), ("?q=wort", {"method": "POST"}, 405),
                 ("doc/0/999999", {}, 404),
                 ("?q=wort", {"head": "Sec-Fetch-Site: cross-site\r\n"}, 403)]
        page.ask("?q=wort")
        files = len(os.listdir(f"/proc/{server.pid}/fd"))
        loader = self.start("load-mbox", "--jobs", "1", box)
        told = []
        drain = threading.Thread(target=lambda: told.append(loader.communicate()))
        drain.start()
        with ThreadPoolExecutor(4) as pool:
            asked = [kinds[at % len(kinds)] for at in range(2_000)]
            statuses = [*pool.map(lambda one: page.ask(one[0], **one[1]).status, asked)]
        wrong = Counter((rest, wanted, status) for (rest, _, wanted), status in zip(asked, statuses)
                        if status != wanted and (reads() or status != 503))
        self.assertEqual(wrong, {})
        self.assertGreater(statuses.count(200), 400)
        drain.join()
        self.assertEqual(loader.returncode, 0, told)
        self.assertIn("<h2>3,009 found</h2>", page.ask("?q=NOT+xyzzy").body)
        # A connection is closed behind its answer; each session more that is kept has three pipes.
        most = files + 3 * (sessions.MOST - 1)
        self.wait_for(lambda: len(os.listdir(f"/proc/{server.pid}/fd")) <= most)
