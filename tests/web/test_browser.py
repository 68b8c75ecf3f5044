"""The web page in a real Chromium: what is opened, shown and saved, and what it never does."""

import io
import sys
import tempfile
import zipfile
from pathlib import Path

from tests.cli.run import sample, xaropinto
from tests.support.report import run_unit_tests
from tests.web.browser_case import NEWS, RESULT, PageCase, button
from tools.web_page import page_text

VIEW = "document.body.dataset.view"
NAMESPACES = '/ xmlns="[^"]*"/g'
FILES = ("header.csv", "cost_rates.csv", "curve.csv", "mortality.csv", "portfolio.csv")
# Ways by which a page could reach another machine; each must end in an error.
CONNECTIONS = {
    "fetch": "fetch('https://example.org/')",
    "request": "new Promise((done, fail) => { const it = new XMLHttpRequest(); it.onerror = fail;"
               " it.onload = done; it.open('GET', 'https://example.org/'); it.send(); })",
    "image": "new Promise((done, fail) => { const it = new Image(); it.onerror = fail;"
             " it.onload = done; it.src = 'https://example.org/it.png'; })",
    "socket": "new Promise((done, fail) => { const it = new WebSocket('wss://example.org/');"
              " it.onerror = fail; it.onopen = done; })",
}


class Opened(PageCase):
    """What is dropped or chosen is shown by its verdict."""

    def test_a_chosen_book_is_shown_as_the_command_shows_it(self):
        for name in ("small_insurer", "full", "edition_2"):
            self.open_book(name)
            self.check(f"{name} is accepted", self.browser.value(VIEW) == "accepted", self.news())
            page = self.command("page", sample(name), "-o", "-").decode()
            parsed = f"new DOMParser().parseFromString({page!r}, 'text/html').body"
            due, shown = (self.browser.value(f"{each}.innerHTML.trim().replace({NAMESPACES}, '')")
                          for each in (parsed, RESULT))
            self.check(f"{name} is drawn", shown == due, f"{shown[:300]}\n{due[:300]}")

    def test_a_dropped_book_is_shown(self):
        self.browser.drop(sample("small_insurer"))
        self.wait_for("small_insurer.book: accepted 315, 2 warnings")
        self.assertIn("26'105'519'497", self.text_of())
        self.assertEqual(self.browser.value(f"{RESULT}.querySelectorAll('svg').length"), 6)

    def test_a_refusal_is_in_words_with_its_neighbourhood(self):
        self.browser.drop(sample("lapse_too_large"))
        self.wait_for("lapse_too_large.book: refused 12 1232; owner: the portfolio department")
        words = xaropinto("check", sample("lapse_too_large")).errors.split(": ", 1)[1].strip()
        found, rest = words.split("; rule: ")
        rule, owner = rest.split("; owner: ")
        for part in (found, rule, owner, "refused 12 1232"):
            self.check(part, part in self.text_of())
        self.check("mark", self.text_of("#result mark") == "1,000,001")
        self.check("row", self.text_of("#result tr.fault").startswith("11,2204 PG20 men120"),
                   self.text_of("#result tr.fault"))
        self.check("no listing is offered", not self.browser.value(f"!!{button('Listing')}"))

    def test_a_refusal_in_the_header_shows_the_fields_around(self):
        book = bytearray(sample("small_insurer").read_bytes())
        book[36:40] = (1_000_001).to_bytes(4, "little")
        with tempfile.TemporaryDirectory() as folder:
            path = Path(folder) / "costs.book"
            path.write_bytes(book)
            self.browser.choose("#files", path)
            self.wait_for("costs.book: refused 6 36")
        self.check("mark", self.text_of("#result mark") == "1,000,001")
        self.check("field", self.text_of("#result tr.fault").startswith("cost rate of PG1"))

    def test_every_fault_is_shown_and_saved_as_the_command_prints_it(self):
        book = bytearray(sample("small_insurer").read_bytes())
        book[36:40] = (1_000_001).to_bytes(4, "little")
        book[1_220 + 12:1_220 + 16] = (1_000_002).to_bytes(4, "little")
        with tempfile.TemporaryDirectory() as folder:
            path = Path(folder) / "two.book"
            path.write_bytes(book)
            self.browser.choose("#files", path)
            self.wait_for("two.book: refused 6 36")
            self.click("Every fault")
            self.wait_for("two.book: 2 faults")
            due = xaropinto("check", "--all", path).out.decode().replace(str(path), path.name)
        self.check("shown", all(line.split(": ", 2)[2] in self.text_of()
                                for line in due.splitlines()[1:]))
        self.check("saved", self.saved("Text") == ("two.faults.txt", due.encode()))
        self.click("Back to two.book")
        self.wait_for("two.book: refused 6 36")

    def test_what_is_no_book_is_refused_in_words(self):
        with tempfile.TemporaryDirectory() as folder:
            for name, held, words in (("empty.book", b"", "it looks like an empty file"),
                                      ("sheet.xlsx", b"PK\3\4" + bytes(2_000), "as CSV files")):
                path = Path(folder) / name
                path.write_bytes(held)
                self.browser.choose("#files", path)
                self.wait_for(f"{name}: refused")
                self.check(name, words in self.text_of(), self.text_of())

    def test_three_books_at_once_are_not_opened(self):
        self.browser.choose("#files", *(sample(name) for name in ("full", "one_record",
                                                                  "edition_2")))
        self.wait_for("3 files were given")

    def test_the_insurer_is_on_the_page(self):
        self.open_book("one_record")
        self.browser.value("document.getElementById('insurer').focus()")
        self.browser.ask("Input.insertText", text="Example & Söhne <AG>")
        self.browser.press("Tab")
        self.browser.until(f"{RESULT}.textContent.includes('Söhne <AG>')")
        name, held = self.saved("Page")
        self.assertEqual(name, "one_record.html")
        self.assertEqual(held, self.command("page", sample("one_record"), "-o", "-", "--insurer",
                                            "Example & Söhne <AG>"))


class Saved(PageCase):
    """What is saved has the bytes of what the command writes."""

    def test_listing_report_and_page(self):
        for book in ("small_insurer", "full"):
            self.open_book(book)
            path = sample(book)
            self.check(f"listing of {book}", self.saved("Listing") == (
                f"{book}.listing", self.command("list", path, "-o", "-")))
            for setting in ("0", "7"):
                self.browser.value("(document.querySelector('#actions select').selectedIndex = "
                                   f"{setting})")
                self.check(f"report {setting} of {book}", self.saved("Year report") == (
                    f"{book}.years-{setting}.csv",
                    self.command("years", path, "--setting", setting, "-o", "-")))
            self.check(f"page of {book}", self.saved("Page") == (
                f"{book}.html", self.command("page", path, "-o", "-")))

    def test_csv_files(self):
        self.open_book("small_insurer")
        name, held = self.saved("CSV files")
        self.check("name", name == "small_insurer.zip")
        with tempfile.TemporaryDirectory() as folder:
            xaropinto("read", sample("small_insurer"), "-o", Path(folder) / "lines")
            with zipfile.ZipFile(io.BytesIO(held)) as files:
                self.check("whole", files.testzip() is None)
                self.check("names", files.namelist() == list(FILES))
                for each in FILES:
                    due = (Path(folder) / "lines" / each).read_bytes()
                    self.check(each, files.read(each) == due)

    def test_converted_book(self):
        self.open_book("newer_basis")
        self.click("Convert")
        self.wait_for("Converted, not saved yet: newer_basis.basis-1.book: accepted 3")
        self.check("book", self.saved("Book") == ("newer_basis.basis-1.book",
                                                  sample("worked_example").read_bytes()))

    def test_practice_book(self):
        for start in ("1", "18446744073709551615"):
            self.browser.value(f"(document.getElementById('start-number').value = '{start}')")
            self.click("Make practice book")
            self.wait_for(f"practice-{start}.book: accepted")
            self.check(start, self.saved("Book") == (f"practice-{start}.book", self.command(
                "practice", start, "-o", "-")))
        for start, words in (("0", "refused 32"), ("-1", "'-1' is not a whole number of at most"),
                             ("18446744073709551616", "is not a whole number of at most 64 bits")):
            self.browser.value(f"(document.getElementById('start-number').value = '{start}')")
            self.click("Make practice book")
            self.wait_for(words)
            self.check(start, words in self.news())

    def test_age_shift(self):
        self.open_book("small_insurer")
        self.click("Age shift")
        self.wait_for("one age class lower and higher")
        self.check("shown", "2'812'583'105" in self.text_of())
        self.check("saved", self.saved("Text") == ("small_insurer.age-shift.txt", self.command(
            "age-shift", sample("small_insurer"))))
        self.click("Back to small_insurer.book")
        self.wait_for("small_insurer.book: accepted")


class Compared(PageCase):
    """Two books, in whichever order they are given."""

    def test_another_book_is_last_years(self):
        self.open_book("this_year_slipped")
        self.browser.choose("#other", sample("last_year"))
        self.wait_for("Age classes: every class looks one too high")
        words = ("compare", sample("last_year"), sample("this_year_slipped"))
        self.check("page", self.saved("Page") == ("this_year_slipped.compare.html",
                                                  self.written(*words)))
        self.check("text", self.saved("Text") == ("this_year_slipped.compare.txt",
                                                  self.command(*words)))

    def test_two_books_are_put_in_the_order_of_their_years(self):
        self.browser.drop(sample("this_year"), sample("last_year"))
        self.wait_for("Age classes: as expected")
        self.check("page", self.saved("Page")[1] == self.written(
            "compare", sample("last_year"), sample("this_year")))

    def test_a_refused_book_is_not_compared(self):
        self.open_book("this_year")
        self.browser.choose("#other", sample("lapse_too_large"))
        self.wait_for("lapse_too_large.book: refused 12 1232: PG2 men")
        self.assertEqual(self.browser.value(VIEW), "accepted")


class Tables(PageCase):
    """CSV files become a book, as `xaropinto write` writes it."""

    def setUp(self):
        super().setUp()
        held = tempfile.TemporaryDirectory()
        self.addCleanup(held.cleanup)
        self.lines = Path(held.name) / "lines"
        xaropinto("read", sample("small_insurer"), "-o", self.lines)
        self.book = Path(held.name) / "due.book"
        xaropinto("write", self.lines, "-o", self.book)

    def test_five_files_chosen_or_dropped(self):
        paths = [self.lines / name for name in FILES]
        for name, act in (("chosen", lambda: self.browser.choose("#files", *paths)),
                          ("dropped", lambda: self.browser.drop(*reversed(paths)))):
            act()
            self.wait_for("Written, not saved yet: written.book: accepted 315")
            self.check(name, self.saved("Book") == ("written.book", self.book.read_bytes()))
            self.browser.value(f"({NEWS} = '')")

    def test_a_folder_chosen_or_dropped(self):
        for name, act in (("dropped", lambda: self.browser.drop(self.lines)),
                          ("chosen", lambda: self.browser.choose("#folder", self.lines))):
            act()
            self.wait_for("Written, not saved yet: lines.book: accepted 315")
            self.check(name, self.saved("Book") == ("lines.book", self.book.read_bytes()))
            self.browser.value(f"({NEWS} = '')")

    def test_a_bad_cell_is_named_as_the_command_names_it(self):
        path = self.lines / "portfolio.csv"
        path.write_text(path.read_text().replace("PG1a,", "PG9,", 1), encoding="utf-8")
        self.browser.drop(self.lines)
        self.wait_for("lines: refused: portfolio.csv, line 2, column subgroup")
        words = xaropinto("write", self.lines, "-o", self.book).errors.strip()
        self.check("words", words.removeprefix("refused: ") in self.text_of(), words)
        self.check("no book", not self.browser.value(f"!!{button('Book')}"))

    def test_a_missing_file_is_named(self):
        self.browser.choose("#files", *(self.lines / name for name in FILES[:4]))
        self.wait_for("missing: portfolio.csv")


class Faults(PageCase):
    """What goes wrong in the page itself is reported in words."""

    def test_a_fault_is_reported(self):
        for name, act in (("error", "{ throw new Error('one fault'); }"),
                          ("promise", "Promise.reject(new Error('one fault'))")):
            self.browser.value(f"({NEWS} = '', setTimeout(() => {act}), 0)")
            self.wait_for("this is a fault of the page, please report it: Error: one fault")
            self.check(name, self.browser.value("document.getElementById('status').className"
                                                " === 'bad'"))
        self.browser.events.clear()

    def test_a_page_that_cannot_start_says_so(self):
        path = self.path.with_name("broken.html")
        path.write_text(page_text(b"\0asm no module"), encoding="utf-8")
        self.browser.open(path.as_uri())
        self.wait_for("the page cannot start, perhaps because this browser is too old: "
                      "CompileError")
        self.assertTrue(self.browser.value("document.getElementById('choose').disabled"))


class Connections(PageCase):
    """Nothing leaves the page."""

    def test_no_request_is_made(self):
        self.open_book("small_insurer")
        self.saved("Listing")
        self.browser.drop(sample("this_year"), sample("last_year"))
        self.wait_for("Age classes")
        asked = {each["request"]["url"].partition(":")[0]
                 for each in self.browser.named("Network.requestWillBeSent")
                 if each["request"]["url"] != self.path.as_uri()}
        self.assertEqual(asked - {"blob"}, set())

    def test_policy_refuses_every_connection(self):
        for name, expression in CONNECTIONS.items():
            ended = self.browser.value(f"({expression}).then(() => 'done', () => 'refused')")
            self.check(name, ended == "refused")
        refused = [each["entry"]["text"] for each in self.browser.named("Log.entryAdded")]
        self.check("by the policy", len(refused) >= len(CONNECTIONS) and all(
            "Content Security Policy" in each for each in refused), str(refused))
        self.browser.events.clear()


if __name__ == "__main__":
    sys.exit(run_unit_tests(sys.modules[__name__]))
