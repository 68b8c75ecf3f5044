// What is shown of accepted books: the command's page and what can be saved, the age shift, two
// books compared.
import { CLI_FIGURES, CLI_PAGES, COMPARE_PAGE } from "../../target/web/tables.js";
import { button, group, settingButton } from "./actions.js";
import { ageShift } from "./age_shift.js";
import { ageShiftPage } from "./age_shift_view.js";
import * as answers from "./answers.js";
import { comparisonLines } from "./cli_compare.js";
import { ageShiftText } from "./cli_portfolio.js";
import { compare } from "./compare.js";
import { comparePage } from "./compare_page.js";
import { report, setView, showActions, showPage } from "./frame.js";
import { counted } from "./number_format.js";
import { pageOf } from "./page.js";
import { notesOf } from "./plausibility.js";
import { BOOK } from "./refusals.js";
import { showRefused } from "./refused_views.js";
import { stemOf } from "./saving.js";
import { csvFiles } from "./sheets.js";
import { backTo, leaving, save } from "./view_parts.js";
import { zipOf } from "./zip_file.js";

/** @typedef {import("./view_parts.js").Book} Book */
/** @typedef {import("./view_parts.js").Surroundings} Surroundings */

const AGE_SHIFT_FILE = ".age-shift.txt", TABLES_FILE = ".zip";
const COMPARE_FILE = ".compare.html", COMPARE_TEXT_FILE = ".compare.txt";

/**
 * Show a book by its verdict.
 * @param {Book} book
 * @param {Surroundings} around
 */
export function showBook(book, around) {
  around.remember(() => showBook(book, around));
  try {
    showAccepted(book, answers.check(book.held), around);
  } catch (error) {
    if (!(error instanceof answers.RefusedError)) throw error;
    showRefused(book, error, BOOK, around);
  }
}

/**
 * The page of an accepted book, as the command writes it.
 * @param {Book} book
 * @param {number} n
 * @param {Surroundings} around
 */
function showAccepted(book, n, around) {
  const imprint = around.imprint();
  const page = pageOf(book.name, book.held, imprint);
  const warnings = counted(notesOf(book.held, imprint.today).length, "warning", "warnings");
  showPage(page);
  setView("accepted", book.name);
  showActions([group("Save", ...savings(book, page)),
    group("Show", leaving("Age shift", () => showAgeShift(book, around)),
      button("Comparison with…", around.chooseOther))]);
  report(`${book.made ?? ""}${book.name}: accepted ${n}, ${warnings}`, "good");
}

/**
 * The buttons that save a book that was made here, and what the command writes of any.
 * @param {Book} book
 * @param {string} page
 */
function savings(book, page) {
  const stem = stemOf(book.name);
  const own = button("Book", () => save(book.name, book.held), true);
  return [
    ...(book.made ? [own] : []),
    button("Listing", () => save(stem + CLI_FIGURES.LISTING, answers.listing(book.held)),
      !book.made),
    button("Page", () => save(stem + CLI_PAGES.PAGE, page)),
    button("CSV files", () =>
      save(stem + TABLES_FILE, zipOf(Object.entries(csvFiles(answers.read(book.held)))))),
    settingButton("Year report of", (setting) =>
      save(stem + CLI_FIGURES.YEARS.replace("{}", String(setting)),
        answers.report(book.held, setting))),
  ];
}

/**
 * The totals one age class lower and higher.
 * @param {Book} book
 * @param {Surroundings} around
 */
function showAgeShift(book, around) {
  const shift = ageShift(book.held), stem = stemOf(book.name);
  around.remember(() => showAgeShift(book, around));
  showPage(ageShiftPage(book.name, shift));
  setView("age-shift", book.name);
  showActions([backTo(book, around),
    group("Save", button("Text", () => save(stem + AGE_SHIFT_FILE, ageShiftText(shift))))]);
  report(`${book.name}: totals one age class lower and higher`);
}

/**
 * Two accepted books compared.
 * @param {Book} last
 * @param {Book} current
 * @param {Surroundings} around
 */
export function showComparison(last, current, around) {
  const imprint = around.imprint();
  const comparison = compare(last.held, current.held, imprint.today);
  const page = comparePage(last, current, comparison, imprint);
  around.remember(() => showComparison(last, current, around));
  showPage(page);
  setView("comparison", `${current.name}, ${last.name}`);
  const stem = stemOf(current.name), text = [...comparisonLines(comparison), ""].join("\n");
  showActions([backTo(current, around),
    group("Save", button("Page", () => save(stem + COMPARE_FILE, page), true),
      button("Text", () => save(stem + COMPARE_TEXT_FILE, text)))]);
  report([comparison.verdict(), ...comparison.exceptions()].join("; "),
    COMPARE_PAGE.COLOURS[comparison.alignment.overall.verdict] ?? "bad");
}
