"""Test cases of the web page in Chromium: one browser for all, the page opened anew for each test.
"""

import tempfile
import unittest
from functools import lru_cache
from pathlib import Path

from tests.cli.run import DONE, sample, xaropinto
from tests.support.case import Case
from tests.web.chromium import Chromium
from tests.web.node import module_path
from tools.web_page import page_text

NEWS = "document.getElementById('status').textContent"
RESULT = "document.getElementById('result')"
READY = "No book is open."
# What the browser reports of a page that does something wrong.
TROUBLE = ("Log.entryAdded", "Runtime.exceptionThrown", "Runtime.consoleAPICalled")


@lru_cache(maxsize=None)
def opened():
    """The browser, and the path of the page; both end with the module's tests."""
    folder = tempfile.TemporaryDirectory()
    unittest.addModuleCleanup(folder.cleanup)
    path = Path(folder.name) / "xaropinto.html"
    path.write_text(page_text(Path(module_path()).read_bytes()), encoding="utf-8")
    browser = Chromium()
    unittest.addModuleCleanup(browser.close)
    return browser, path


class PageCase(Case):
    """A test that drives the page."""

    @classmethod
    def setUpClass(cls):
        cls.browser, cls.path = opened()

    def setUp(self):
        self.browser.resize(1280)
        self.browser.open(self.path.as_uri())
        self.browser.until(f"{NEWS} === {READY!r}")

    def tearDown(self):
        """No test leaves an error or a warning on the console."""
        self.assertEqual(self.browser.named(*TROUBLE), [])

    def news(self):
        """What the page reports last."""
        return self.browser.value(NEWS)

    def text_of(self, selector="#result"):
        """The text of an element of the page."""
        return self.browser.value(f"document.querySelector({selector!r}).textContent")

    def wait_for(self, words):
        """Wait until the page reports something with these words."""
        self.browser.until(f"{NEWS}.includes({words!r})")

    def open_book(self, name):
        """Choose a sample book."""
        self.browser.choose("#files", sample(name))
        self.wait_for(f"{name}.book: ")

    def click(self, words):
        """Click the button with these words."""
        self.browser.value(f"{button(words)}.click()")

    def saved(self, words):
        """The name and bytes of the file that a button saves."""
        return self.browser.file_saved(lambda: self.click(words))

    def command(self, *words):
        """What the command prints."""
        run = xaropinto(*words)
        self.assertEqual(run.code, DONE, run.errors)
        return run.out

    def written(self, *words):
        """What the command writes to a file, where it prints something else."""
        with tempfile.TemporaryDirectory() as folder:
            out = Path(folder) / "out"
            self.command(*words, "-o", out)
            return out.read_bytes()


def button(words):
    """The button that begins with these words, as an expression."""
    return (f"[...document.querySelectorAll('button')].find((each) => "
            f"each.textContent.trim().startsWith({words!r}))")
