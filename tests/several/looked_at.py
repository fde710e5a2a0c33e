"""An index and a comparison in Chromium: they are whole, sorted by a click, and fit small screens and paper."""
from __future__ import annotations

from browser import Browser
from lists import EXAMPLES, FILES, OVERLAPPING, SEVEN, InFolder

NAMES = "[...document.querySelectorAll('tbody tr')].map((it) => it.children[0].textContent.split('/').at(-1))"
WIDE = "document.documentElement.scrollWidth - document.documentElement.clientWidth"


class LookedAt(InFolder):
    def setUp(self) -> None:
        super().setUp()
        inputs = [SEVEN, EXAMPLES / "pad-setting.trace", EXAMPLES / "join-in-the-middle.trace",
                  FILES / "tcp-gap-and-next-connection.pcap", EXAMPLES / "no-side.trace"]
        self.page("--each", *inputs, "-o", "pages")
        self.page("--compare", SEVEN, OVERLAPPING, "-o", "compared.html")
        browser = Browser()
        self.browser = browser.__enter__()
        self.addCleanup(browser.__exit__)

    def test_index(self):
        browser = self.browser
        browser.open(self.folder / "pages" / "index.html")
        self.assertEqual(browser.value("document.title"), "index of pages: x25page")
        browser.click("th:nth-child(3) button")
        self.assertEqual(browser.value(NAMES)[:2], ["join-in-the-middle.trace", "seven-calls.trace"])
        self.assertEqual(browser.value("document.querySelector('th:nth-child(3)').ariaSort"), "descending")
        browser.click("th:nth-child(1) button")
        self.assertEqual(browser.value(NAMES), sorted(browser.value(NAMES)))
        browser.value("document.querySelector('tbody a[href=\\'seven-calls.html\\']').click()")
        end = "document.documentElement?.dataset.ready === 'yes' && document.querySelector('#name')?.textContent"
        self.assertEqual(browser.wait_for(end, "seven-calls.trace"), "seven-calls.trace")
        self.assertEqual(browser.faults, [])

    def test_widths_and_colours(self):
        """Nothing is wider than the screen, at 1280 and at 400 pixels, light and dark."""
        for page in ("pages/index.html", "compared.html"):
            for width, colour in ((1280, "light"), (400, "dark")):
                self.browser.resize(width, 800)
                self.browser.colours(colour)
                self.browser.open(self.folder / page)
                self.assertEqual(self.browser.value(WIDE), 0, (page, width))
        self.assertEqual(self.browser.faults, [])

    def test_comparison(self):
        browser = self.browser
        browser.open(self.folder / "compared.html")
        self.assertEqual(browser.value("document.querySelectorAll('table').length"), 5)
        browser.click("#section-3 th:nth-child(3) button")
        self.assertEqual(browser.value("document.querySelector('#section-3 tbody td').textContent"), "67890")
        self.assertEqual(browser.faults, [])
