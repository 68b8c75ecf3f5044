// The totals with every record, or every count, one age class lower or higher, as a page.
import { CLI_PORTFOLIO } from "../../target/web/tables.js";
import { figuresOf, remarksOf } from "./cli_portfolio.js";
import { document as page, element, items, section, table } from "./html_parts.js";
import { SETTINGS } from "./layout.js";
import { swiss } from "./number_format.js";

/** @typedef {import("./age_shift.js").AgeShift} AgeShift */
/** @typedef {import("./age_shift.js").Move} Move */

const [, , ...COLUMNS] = CLI_PORTFOLIO.HEADING.split(",");
const PROVED = "In centimes. The totals of each moved book come from the proved call; the moves "
  + "are the program's own: tested, not proved.";

/**
 * The page.
 * @param {string} name
 * @param {AgeShift} shift
 */
export function ageShiftPage(name, shift) {
  const title = `${name}: totals one age class lower and higher`;
  return page(title, [element("h1", title), element("p", PROVED),
    part(CLI_PORTFOLIO.RECORDS, shift.totals, shift.records),
    part(CLI_PORTFOLIO.COUNTS, shift.totals, shift.counts)]);
}

/**
 * A table of totals, and what is to be known of it.
 * @param {string} title
 * @param {bigint[]} own
 * @param {Move} move
 */
function part(title, own, move) {
  const [heading, words] = title.split(": ");
  const rows = own.map((total, setting) => [`${setting} ${SETTINGS[setting]}`,
    ...figuresOf(move, setting, total).map((figure) => (figure === "" ? "" : swiss(figure)))]);
  const remarks = remarksOf(move).map(inWords);
  return section(heading, `<div class="wide" tabindex="0" role="region" aria-label="${heading}">`,
    table(words, ["setting", ...COLUMNS.map(inWords)], rows, "stack"), "</div>",
    remarks.length ? items(remarks) : "");
}

/**
 * The name of a column in words.
 * @param {string} name
 */
function inWords(name) {
  return name.replaceAll("_", " ");
}
