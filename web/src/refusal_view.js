// A refused book: the verdict, where and why, and what stands around the place.
import { MESSAGES } from "../../target/web/tables.js";
import { faultsLine } from "./cli_check.js";
import { document as page, element, facts, note, section, text } from "./html_parts.js";
import {
  Field, HEADER_BYTES, RECORD_BYTES, SEXES, SUBGROUPS, headerFields, heads, percentages, recordAt,
  recordCount,
} from "./layout.js";
import { grouped } from "./python_text.js";
import { refusalOf } from "./refusals.js";
import { sha256 } from "./sha256.js";

/** @typedef {import("./answers.js").RefusedError} RefusedError */
/** @typedef {import("./given_files.js").NamedBytes} NamedBytes */

// So many records or fields are shown before and behind the one at fault.
const AROUND = 3;
const { SHORT, BAD_LENGTH, SST_YEAR } = MESSAGES;
/**
 * The fields at the start of a record: name, offset, size.
 * @type {[string, number, number][]}
 */
const START_FIELDS = [["code", 0, 1], ["sex", 1, 1], ["class", 2, 1], ["next", 4, 2]];
const REMARK = "Nothing is computed for a refused book. This is its first fault: there may be more "
  + "behind it.";
const NO_WORKBOOKS = "This page reads no workbooks: save the five sheets of one as CSV files, "
  + "and open these.";
// How a workbook begins.
const WORKBOOK = "PK";

/**
 * The page of a refused book.
 * @param {NamedBytes} book
 * @param {RefusedError} refused
 * @param {string} call
 */
export function refusalPage(book, refused, call) {
  const { number, place, words, owner } = refused;
  const { rule } = refusalOf(number, call);
  const found = words.slice(0, words.lastIndexOf(`rule: ${rule}`)).replace(/; $/, "");
  // The place of these is the length of the file.
  const isLength = number === SHORT || number === BAD_LENGTH;
  const isWorkbook = String.fromCharCode(...book.held.subarray(0, 2)) === WORKBOOK;
  /** @type {[string, string][]} */
  const rows = [["Refusal", String(number)],
    ...(isLength ? [] : [/** @type {[string, string]} */ (["Place", `byte ${grouped(place)}`])]),
    ["Rule", rule], ["Owner", owner], ["Length", `${grouped(book.held.length)} bytes`],
    ["SHA-256", sha256(book.held)]];
  return page(book.name, [element("h1", book.name),
    element("p", `refused ${number} ${place}`, { class: "verdict bad" }),
    element("p", found || rule), facts("The first rule that is broken", rows),
    isLength ? "" : neighbourhood(book.held, place), note(isWorkbook ? NO_WORKBOOKS : REMARK)]);
}

/**
 * The page of every fault of a refused book.
 * @param {string} name
 * @param {import("./faults.js").Faults} faults
 */
export function faultsPage(name, faults) {
  const title = `${name}: every fault`, [{ number: first, place: start }] = faults.found;
  return page(title, [element("h1", title),
    element("p", `refused ${first} ${start}`, { class: "verdict bad" }),
    facts(faultsLine(faults), faults.found.map(({ number, place, words }) =>
      [`${number}, byte ${grouped(place)}`, words]))]);
}

/**
 * The page of tables with a fault: its place, what is found there, and the rule.
 * @param {string} name
 * @param {import("./tables.js").BadLineError} bad
 */
export function badLinePage(name, bad) {
  return page(name, [element("h1", name), element("p", "refused", { class: "verdict bad" }),
    element("p", bad.message),
    facts("The first fault", [["Place", bad.place], ["Value", bad.value], ["Rule", bad.rule]]),
    note("No book is written. There may be more faults behind the first.")]);
}

/**
 * What stands around a place of a book.
 * @param {Uint8Array} book
 * @param {number} place
 */
function neighbourhood(book, place) {
  if (place >= book.length) return "";
  return place < HEADER_BYTES ? headerPart(book, place) : recordPart(book, place);
}

/**
 * The fields of header and tables in the order of their places, with their ranges in this book.
 * @param {Uint8Array} book
 */
function fieldsOf(book) {
  const [edition] = book;
  const shares = edition === 1 ? percentages().map((each) => each.with({ low: 0, high: 0 }))
    : percentages();
  const chains = heads().map((each) => each.with({ high: recordCount(book) }));
  return [...headerFields(), ...shares, ...chains].sort((one, other) => one.at - other.at);
}

/**
 * The field of the header or tables that has a place, and those around it.
 * @param {Uint8Array} book
 * @param {number} place
 */
function headerPart(book, place) {
  const fields = fieldsOf(book), found = fields.findIndex((field) => has(field, place));
  if (found < 0) return "";
  const rows = fields.slice(Math.max(0, found - AROUND), found + AROUND + 1).map((field) => {
    const [value, low, high] = [field.read(book), field.low, field.high].map((number) =>
      (field.name === SST_YEAR ? String(number) : grouped(number)));
    return tableRow(field.name, [grouped(field.at), value,
      low === high ? low : `${low} to ${high}`, field.unit], field === fields[found] ? 1 : -1);
  });
  return around("Fields around the place", ["field", "byte", "value", "permitted", "unit"], rows);
}

/**
 * The record that has a place, and those around it.
 * @param {Uint8Array} book
 * @param {number} place
 */
function recordPart(book, place) {
  const { number } = recordAt(place);
  const last = Math.floor((book.length - HEADER_BYTES) / RECORD_BYTES);
  const rows = [];
  for (let each = Math.max(1, number - AROUND); each <= Math.min(last, number + AROUND); each++) {
    const start = HEADER_BYTES + RECORD_BYTES * (each - 1);
    const fields = fieldsFrom(start), cells = fields.map((field) => cell(field, book));
    const marked = fields.findIndex((field) => has(field, place));
    rows.push(tableRow(String(each), [grouped(start), ...cells], marked < 0 ? -1 : marked + 1,
      each === number));
  }
  const names = fieldsFrom(HEADER_BYTES).map(({ name }) => name);
  return around("Records around the place", ["record", "byte", ...names], rows);
}

/**
 * The fields of a record that starts here.
 * @param {number} start
 */
function fieldsFrom(start) {
  return [...START_FIELDS.map(([name, at, size]) => new Field([name, start + at, size])),
    ...recordAt(start).fields()];
}

/**
 * A field's number, with what it means where it is a code.
 * @param {Field} field
 * @param {Uint8Array} book
 */
function cell(field, book) {
  const number = field.read(book);
  const word = field.name === "code" ? SUBGROUPS[number - 1]
    : field.name === "sex" ? SEXES[number] : "";
  return word ? `${number} ${word}` : grouped(number);
}

/**
 * Is a place in a field?
 * @param {Field} field
 * @param {number} place
 */
function has(field, place) {
  return field.at <= place && place < field.at + field.size;
}

/**
 * A row of a table, whose cell of this index, if any, is marked.
 * @param {string} name
 * @param {string[]} cells
 * @param {number} marked
 * @param {boolean} [fault]
 */
function tableRow(name, cells, marked, fault = marked >= 0) {
  const shown = cells.map((each, at) =>
    `<td class="number">${at === marked ? element("mark", each) : text(each)}</td>`);
  return `<tr${fault ? ' class="fault"' : ""}>${element("th", name, { scope: "row" })}`
    + `${shown.join("")}</tr>`;
}

/**
 * A table that may be moved sideways on a narrow screen.
 * @param {string} title
 * @param {string[]} headings
 * @param {string[]} rows
 */
function around(title, headings, rows) {
  const top = headings.map((each, at) =>
    element("th", each, { scope: "col", class: at ? "number" : "" })).join("");
  return section(title, note("As the bytes stand, not checked. Marked is the field at fault."),
    `<div class="scroll" tabindex="0" role="region" aria-label="${title}">`, "<table>",
    `<thead><tr>${top}</tr></thead>`, "<tbody>", ...rows, "</tbody></table></div>");
}
