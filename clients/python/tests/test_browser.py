"""The page in a browser, where Chromium is installed: search, bars, a document, narrow, dark."""

import unittest

from browser import CHROMIUM, Browser
from pages import Page
from support import Stores, mbox
from test_page import EVIL, sent


@unittest.skipUnless(CHROMIUM, "wants Chromium (apt-get install chromium)")
class InABrowser(Stores):
    """What a reader sees and clicks."""

    def setUp(self):
        super().setUp()
        self.loaded(26, "load-mbox", self.write("box", mbox(
            *(sent(number, "wort im Text") for number in range(24)),
            sent(4, EVIL + " wort", Subject=EVIL, Message_ID="<e@x>"),
            sent(8, f"{'lang' * 200}\n\u05d0\u05d1 wort", Subject="breit" * 60,
                 Message_ID="<l@x>"))))
        self.page = Page(self, self.store)
        self.browser = Browser(self.folder / "profile")
        self.addCleanup(self.browser.close)
        self.browser.look(1_000)
        self.browser.open(f"http://localhost:{self.page.port}{self.page.top}")

    def count(self, selector):
        return self.browser.value(f"document.querySelectorAll('{selector}').length")

    def text(self, selector):
        return self.browser.value(f"document.querySelector('{selector}').innerText")

    def box(self):
        return self.browser.value("document.querySelector('input').value")

    def tearDown(self):
        self.assertEqual(self.browser.complaints, [])
        self.assertEqual(self.browser.value("document.scripts.length"), 0)

    def test_the_search(self):
        self.browser.type("WORT")
        self.assertEqual((self.text("h2"), self.box()), ("26 found", "WORT"))
        self.assertEqual((self.count("li"), self.text("mark")), (20, "wort"))
        self.browser.click("nav a")
        self.assertEqual((self.count("li"), self.text("nav")), (6, "newer · 21 to 26"))

    def test_what_a_screen_reader_is_told(self):
        self.browser.type("wort")
        nodes = self.browser.do("Accessibility.getFullAXTree")["nodes"]
        told = [(node["role"]["value"], node.get("name", {}).get("value", "")) for node in nodes
                if not node.get("ignored") and "role" in node]
        for wanted in (("heading", "Search for wort"), ("heading", "26 found"),
                       ("searchbox", "Query"), ("button", "Search")):
            self.assertIn(wanted, told)
        bar = self.browser.value("[...document.querySelectorAll('a')]"
                                 ".findIndex(one => one.closest('svg'))")
        self.assertGreaterEqual(bar, 20)  # The hits come first.

    def test_a_click_on_a_bar(self):
        self.browser.type("wort")
        self.assertEqual(self.count("svg a"), 6)
        self.browser.click("svg a:nth-of-type(2) rect")
        self.assertEqual((self.text("h2"), self.box()), ("5 found", "(wort) date:2010-02"))
        self.assertEqual(self.count("svg"), 0)

    def test_a_document(self):
        self.browser.type("wort AND script")
        self.browser.click("li a")
        self.assertEqual(self.text("pre").strip(), f"{EVIL} wort")
        self.assertEqual(self.box(), "wort AND script")
        self.assertEqual(self.count("img"), 0)

    def test_dark_and_light(self):
        color = "getComputedStyle(document.body).{}.match(/\\d+/g).map(Number)"
        for is_dark in (True, False):
            self.browser.look(1_000, is_dark)
            paper, ink = (self.browser.value(color.format(name)) for name in
                          ("backgroundColor", "color"))
            self.assertEqual(max(paper) < 64 and min(ink) > 192, is_dark)
            self.assertEqual(min(paper) > 192 and max(ink) < 64, not is_dark)

    def test_400_pixels(self):
        self.browser.look(400)
        wide = "document.documentElement.scrollWidth"
        self.browser.type("wort")
        self.assertLessEqual(self.browser.value(wide), 400)
        low = self.browser.value("document.querySelector('svg').getBoundingClientRect().height")
        self.assertGreater(low, 30)
        self.browser.open(f"http://localhost:{self.page.port}{self.page.top}doc/0/26?q=wort")
        self.assertLessEqual(self.browser.value(wide), 400)


if __name__ == "__main__":
    unittest.main()
