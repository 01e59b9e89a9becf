"""A server of the page within a test, and requests to it as they stand on the line."""

import html.parser
import re
import socket
import threading
from collections import namedtuple
from urllib.parse import quote

from rubewola import serving

from support import LONG

# The tags and attributes that the page may have.
TAGS = {*("html meta title link header h1 label form input button main nav h2 ul ol li a span bdi br mark p pre dl "
          "dt dd svg rect text").split()}
ATTRIBUTES = {*("lang charset name content rel href action role type value maxlength dir title "
                "aria-label autofocus class id for viewbox x y width height").split()}

Answer = namedtuple("Answer", ("status", "head", "body"))


class Tags(html.parser.HTMLParser):
    """The tags of a page, what of them may not be there, the texts of its marks, and its links."""

    def __init__(self, page, top):
        super().__init__()
        self.top, self.seen, self.bad, self.links, self.marked, self._open = top, 0, [], [], [], []
        self.feed(page)

    def handle_starttag(self, tag, attrs):
        self.seen += 1
        self._open.append(tag)
        self.bad += [tag] if tag not in TAGS else []
        for name, value in attrs:
            is_out = name in ("href", "action") and not value.startswith(self.top)
            self.bad += [(tag, name, value)] if name not in ATTRIBUTES or is_out else []
            if (tag, name) == ("a", "href"):
                self.links.append(value)

    def handle_data(self, data):
        if self._open[-1:] == ["mark"]:
            self.marked.append(data)

    def handle_endtag(self, tag):
        if tag in self._open:
            while self._open.pop() != tag:
                pass


class Page:
    """A server over stores, in a thread."""

    def __init__(self, test, *stores):
        self.server = serving.Server([str(store) for store in stores], 0)
        self.port, self.top = self.server.port, self.server.top
        thread = threading.Thread(target=self.server.serve_forever, kwargs={"poll_interval": 0.05})
        thread.start()
        test.addCleanup(self.server.server_close)
        test.addCleanup(thread.join)
        test.addCleanup(self.server.shutdown)

    def line(self):
        """A connection."""
        return socket.create_connection(("127.0.0.1", self.port), LONG)

    def raw(self, data):
        """What comes of bytes that are sent."""
        with self.line() as line:
            line.sendall(data)
            return self.all_of(line)

    @staticmethod
    def all_of(line):
        """What comes until the other side closes; a status of 0 where that is nothing."""
        said = b""
        try:
            while data := line.recv(65_536):
                said += data
        except ConnectionResetError:
            pass
        head, _, body = said.partition(b"\r\n\r\n")
        status = re.match(rb"HTTP/1\.0 (\d+) ", head)
        return Answer(int(status[1]) if status else 0, head.decode("latin-1"), body.decode())

    def ask(self, rest="", head="", method="GET", host=None, path=None):
        """The answer to a request, behind the secret or for a path."""
        path = self.top + rest if path is None else path
        host = f"127.0.0.1:{self.port}" if host is None else host
        return self.raw(f"{method} {path} HTTP/1.0\r\nHost: {host}\r\n{head}\r\n".encode())

    def find(self, query, start=0):
        """The page of a query's hits."""
        return self.ask(f"?q={quote(query)}&start={start}")

    def tags(self, answer):
        """The tags of an answer."""
        return Tags(answer.body, self.top)
