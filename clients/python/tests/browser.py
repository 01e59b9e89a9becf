"""A browser without a window, led over a pipe by Chromium's own protocol: objects of JSON with a
NUL behind each."""

import base64
import contextlib
import fcntl
import json
import os
import select
import shutil
import signal
import time

from support import LONG, processes_of

_NAMES = ("chromium", "chromium-browser", "google-chrome")
CHROMIUM = next(filter(None, map(shutil.which, _NAMES)), None)
_IN, _OUT = 3, 4  # Where it reads what to do, and writes what came of it.
_FREE = 10  # Its ends stand above these.


class Browser:
    """One page of a browser, whose profile is in a folder."""

    def __init__(self, folder):
        (to_read, to), (replies, to_reply) = os.pipe(), os.pipe()
        ends = [fcntl.fcntl(end, fcntl.F_DUPFD_CLOEXEC, _FREE) for end in (to_read, to_reply)]
        os.close(to_read), os.close(to_reply)
        line = [CHROMIUM, "--headless=new", "--remote-debugging-pipe", f"--user-data-dir={folder}",
                "--no-first-run", "--disable-gpu", "--disable-dev-shm-usage",
                "--disable-background-networking",
                *(["--no-sandbox"] if os.geteuid() == 0 else [])]
        none = os.open(os.devnull, os.O_RDWR)
        # Its own words go nowhere; these first, for they may stand where its ends shall.
        places = [(none, 0), (none, 1), (none, 2), (ends[0], _IN), (ends[1], _OUT)]
        actions = [(os.POSIX_SPAWN_DUP2, *place) for place in places]
        self._process = os.posix_spawn(CHROMIUM, line, os.environ, file_actions=actions,
                                       setsid=True)
        for end in (*ends, none):
            os.close(end)
        self._to, self._replies = os.fdopen(to, "wb", 0), os.fdopen(replies, "rb", 0)
        self._held, self._last, self._session, self.complaints = b"", 0, None, []
        target = self.do("Target.createTarget", url="about:blank")["targetId"]
        self._session = self.do("Target.attachToTarget", targetId=target, flatten=True)["sessionId"]
        for domain in ("Page", "Runtime", "Log"):
            self.do(f"{domain}.enable")
        self.do("Emulation.setFocusEmulationEnabled", enabled=True)  # So it heeds what is typed.

    def close(self):
        """Ends it, with all its processes."""
        with contextlib.suppress(ProcessLookupError):
            os.killpg(self._process, signal.SIGKILL)
        os.waitpid(self._process, 0)
        while processes_of(self._process):
            time.sleep(0.01)
        self._to.close()
        self._replies.close()

    def _message(self):
        while b"\0" not in self._held:
            if not select.select([self._replies], [], [], LONG)[0]:
                raise TimeoutError("the browser says nothing")
            data = self._replies.read(65_536)
            if not data:
                raise EOFError("the browser has ended")
            self._held += data
        data, _, self._held = self._held.partition(b"\0")
        told = json.loads(data)
        if told.get("method") in ("Log.entryAdded", "Runtime.exceptionThrown",
                                  "Page.javascriptDialogOpening"):
            self.complaints.append(told["params"])
        return told

    def do(self, method, **given):
        """What comes of a command."""
        self._last += 1
        session = {"sessionId": self._session} if self._session else {}
        line = json.dumps({"id": self._last, "method": method, "params": given, **session})
        self._to.write(line.encode() + b"\0")
        while (told := self._message()).get("id") != self._last:
            pass
        if "error" in told:
            raise RuntimeError(f"{method}: {told['error']}")
        return told["result"]

    def _until_loaded(self, method, **given):
        """Does what leads to another page, and waits for that: events of the one before may come
        late."""
        self.value("document.documentElement.dataset.old = 1")
        self.do(method, **given)
        ends = time.monotonic() + LONG
        while not self._is_loaded():
            if time.monotonic() > ends:
                raise TimeoutError("no other page came")
            time.sleep(0.02)

    def _is_loaded(self):
        """Whether there is a page that is whole and not the one before."""
        try:
            return self.value("document.readyState == 'complete' && "
                              "!document.documentElement.dataset.old")
        except RuntimeError:  # The one page has gone, and the other is not there yet.
            return False

    def open(self, address):
        """Goes to an address."""
        self._until_loaded("Page.navigate", url=address)

    def value(self, script):
        """What a script gives, which is none of the page's."""
        return self.do("Runtime.evaluate", expression=script, returnByValue=True)["result"].get("value")

    def click(self, selector):
        """Clicks into the midst of the first element of these."""
        left, top = self.value(
            f"(() => {{ const one = document.querySelector({json.dumps(selector)}); "
            "one.scrollIntoView({block: 'center'}); const box = one.getBoundingClientRect(); "
            "return [box.x + box.width / 2, box.y + box.height / 2] })()")
        mouse = {"x": left, "y": top, "button": "left", "clickCount": 1}
        self.do("Input.dispatchMouseEvent", type="mousePressed", **mouse)
        self._until_loaded("Input.dispatchMouseEvent", type="mouseReleased", **mouse)

    def type(self, text):
        """Types a text into the box, and the return key."""
        self.value("document.querySelector('input').focus()")
        self.do("Input.insertText", text=text)
        self._until_loaded("Input.dispatchKeyEvent", type="keyDown", key="Enter", text="\r",
                           windowsVirtualKeyCode=13)

    def look(self, width, is_dark=False, height=900):
        """Looks at it in so many pixels, light or dark."""
        self.do("Emulation.setDeviceMetricsOverride", width=width, height=height,
                deviceScaleFactor=1, mobile=False)
        scheme = {"name": "prefers-color-scheme", "value": "dark" if is_dark else "light"}
        self.do("Emulation.setEmulatedMedia", features=[scheme])

    def picture(self):
        """What is seen, as a PNG."""
        return base64.b64decode(self.do("Page.captureScreenshot", format="png")["data"])
