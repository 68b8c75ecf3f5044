// What is shown of a refused book or of tables with a fault, and the ways out.
import { button, group } from "./actions.js";
import * as answers from "./answers.js";
import { checkFile } from "./cli_check.js";
import { allFaults } from "./faults.js";
import { bringMarkIntoView, report, setView, showActions, showPage } from "./frame.js";
import { CONVERT } from "./messages.js";
import { counted } from "./number_format.js";
import { BOOK } from "./refusals.js";
import { badLinePage, faultsPage, refusalPage } from "./refusal_view.js";
import { stemOf } from "./saving.js";
import { backTo, leaving, save } from "./view_parts.js";

/** @typedef {import("./view_parts.js").Book} Book */
/** @typedef {import("./view_parts.js").Surroundings} Surroundings */

const CONVERTED = ".basis-1.book", FAULTS_FILE = ".faults.txt";
// The byte of a book that has its age basis, and the one that can be converted.
const AGE_BASIS_AT = 1, NEWER_BASIS = 2;

/**
 * A refusal, with the way out where there is one.
 * @param {Book} book
 * @param {answers.RefusedError} refused
 * @param {string} call
 * @param {Surroundings} around
 */
export function showRefused(book, refused, call, around) {
  showPage(refusalPage(book, refused, call));
  bringMarkIntoView();
  setView("refused", book.name);
  const newer = call === BOOK && book.held[AGE_BASIS_AT] === NEWER_BASIS
    && refused.place === AGE_BASIS_AT;
  const way = newer ? [leaving("Convert to age basis 1", () => convert(book, around), true)] : [];
  showActions([group("Show", ...way, leaving("Every fault", () => showFaults(book, around)))]);
  const { number, place, owner } = refused;
  report(`${book.name}: refused ${number} ${place}; owner: ${owner}`, "bad");
}

/**
 * Every fault of a refused book.
 * @param {Book} book
 * @param {Surroundings} around
 */
function showFaults(book, around) {
  const faults = allFaults(book.held), stem = stemOf(book.name);
  around.remember(() => showFaults(book, around));
  showPage(faultsPage(book.name, faults));
  setView("faults", book.name);
  showActions([backTo(book, around), group("Save", button("Text", () =>
    save(stem + FAULTS_FILE, `${checkFile(book.name, book.held, true).printed.join("\n")}\n`)))]);
  report(`${book.name}: ${counted(faults.found.length, "fault", "faults")}`, "bad");
}

/**
 * A fault in the tables of a book.
 * @param {string} name
 * @param {import("./tables.js").BadLineError} bad
 * @param {Surroundings} around
 */
export function showBadLine(name, bad, around) {
  around.remember(() => showBadLine(name, bad, around));
  showPage(badLinePage(name, bad));
  setView("refused", name);
  showActions([]);
  report(`${name}: refused: ${bad.place}`, "bad");
}

/**
 * Show a book of age basis 2 as one of basis 1.
 * @param {Book} book
 * @param {Surroundings} around
 */
function convert(book, around) {
  try {
    const name = stemOf(book.name) + CONVERTED, held = answers.convert(book.held);
    around.open({ name, held, made: "Converted, not saved yet: " });
  } catch (error) {
    if (!(error instanceof answers.RefusedError)) throw error;
    showRefused(book, error, CONVERT, around);
  }
}
