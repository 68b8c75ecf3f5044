// A table of a spreadsheet: its lines as saved, its columns by heading, its cells by name. As
// python/xaropinto/tables.py; the page reads files of separated values and no workbooks.

import { TABLES } from "../../target/web/tables.js";
import { NoNumberError, headingsOf, numberOf } from "./cell_numbers.js";
import { CsvError, csvLines } from "./csv_reader.js";
import { decode } from "./encodings.js";
import { folded, quoted, quotedByte, stripped } from "./python_text.js";

/** @typedef {import("./cell_numbers.js").Unit} Unit */
/** @typedef {import("./layout.js").Field} Field */

const { MARKS, SEPARATORS } = TABLES;
const SEPARATOR_LINE = new RegExp(`^(?:${TABLES.SEPARATOR_LINE})`, "iu");
const LINE_FEED = 10;

/** What is wrong in a sheet: the place, the value found there, and the rule. */
export class BadLineError extends Error {
  /** @param {string} place @param {string} value @param {string} rule */
  constructor(place, value, rule) {
    super(`${place}: ${quoted(value)}; ${rule}`);
    this.name = "BadLineError";
    this.place = place;
    this.value = value;
    this.rule = rule;
  }
}

/**
 * A kind of table: the name of its file, and its columns in their order.
 * @typedef {{name: string, columns: string[]}} Kind
 */
/**
 * A line with its number.
 * @typedef {{line: number, cells: string[]}} Line
 */
/**
 * Where a column stands, its heading as saved, and the unit that this says.
 * @typedef {{at: number, heading: string, unit: Unit}} Column
 */

/** The lines of a table. */
export class Table {
  /** @param {string} file @param {Line[]} lines */
  constructor(file, lines) {
    this.file = file;
    this.lines = lines;
  }

  /**
   * The name of a cell.
   * @param {number} line
   * @param {string} heading
   * @returns {string}
   */
  place(line, heading) {
    return `${this.file}, line ${line}, column ${heading}`;
  }
}

/** A line of a table. */
export class Row {
  /** @param {Table} table @param {Line} line @param {Map<string, Column>} columns */
  constructor(table, { line, cells }, columns) {
    this.table = table;
    this.line = line;
    this.columns = columns;
    this.cells = cells;
  }

  /**
   * A column of the table.
   * @param {string} name
   * @returns {Column}
   */
  column(name) {
    return /** @type {Column} */ (this.columns.get(name));
  }

  /**
   * A cell as it stands.
   * @param {string} column
   * @returns {string}
   */
  word(column) {
    return this.cells[this.column(column).at];
  }

  /**
   * The name of a cell.
   * @param {string} column
   * @returns {string}
   */
  place(column) {
    return this.table.place(this.line, this.column(column).heading);
  }

  /**
   * Stop at a cell.
   * @param {string} column
   * @param {string} rule
   * @returns {never}
   */
  bad(column, rule) {
    throw new BadLineError(this.place(column), this.word(column), rule);
  }

  /**
   * A cell's number in the book's unit, within a range.
   * @param {string} column
   * @param {number} low
   * @param {number} high
   * @returns {number}
   */
  number(column, low, high) {
    try {
      return numberOf(this.word(column), this.column(column).unit, low, high);
    } catch (wrong) {
      if (wrong instanceof NoNumberError) return this.bad(column, wrong.message);
      throw wrong;
    }
  }

  /**
   * A cell's number, within the range of a book's field.
   * @param {string} column
   * @param {Field} field
   * @returns {number}
   */
  ranged(column, field) {
    return this.number(column, field.low, field.high);
  }

  /**
   * Which of these words a cell has, in any case.
   * @param {string} column
   * @param {string[]} words
   * @returns {number}
   */
  choice(column, words) {
    const found = words.findIndex((word) => sameWord(this.word(column), word));
    return found < 0 ? this.bad(column, `one of ${words.join(", ")} is due`) : found;
  }
}

/**
 * Is a text a word of ASCII, but for their case?
 * @param {string} one
 * @param {string} word
 * @returns {boolean}
 */
export function sameWord(one, word) {
  return folded(one) === folded(word);
}

/**
 * The lines of a file of separated values.
 * @param {string} file
 * @param {Uint8Array} raw
 * @returns {Table}
 */
export function savedTable(file, raw) {
  const text = decoded(file, raw);
  const told = SEPARATOR_LINE.exec(text);
  if (told && !Array.from(SEPARATORS).includes(told[1])) {
    throw new BadLineError(`${file}, line 1`, stripped(told[0]),
      "the separator is a comma, a semicolon or a tab");
  }
  const body = told ? text.slice(told[0].length) : text, before = told ? 1 : 0;
  const [heading] = body.replace(/^[\r\n]+/, "").split(/[\r\n]/, 1);
  const separator = told ? told[1]
    : Array.from(SEPARATORS).find((each) => heading.includes(each)) ?? ",";
  try {
    const lines = csvLines(body, separator);
    return new Table(file, lines.map(({ line, cells }) => ({ line: before + line, cells })));
  } catch (wrong) {
    if (!(wrong instanceof CsvError)) throw wrong;
    throw new BadLineError(
      `${file}, line ${before + wrong.line}`, "", `no line of cells: ${wrong.message}`);
  }
}

/**
 * The text of a file by its mark; without one UTF-8, and Windows-1252 where it is not that.
 * @param {string} file
 * @param {Uint8Array} raw
 * @returns {string}
 */
function decoded(file, raw) {
  const marked = MARKS.find(([mark]) =>
    /** @type {number[]} */ (mark).every((byte, at) => raw[at] === byte));
  let wrong = 0;
  for (const encoding of marked ? [String(marked[1])] : ["utf-8", "cp1252"]) {
    const found = decode(raw, encoding);
    if ("wrong" in found) {
      ({ wrong } = found);
    } else if (found.text.includes("\0")) {
      throw new BadLineError(
        `${file}, line 1`, "\0", "text has no zero bytes; UTF-16 begins with its mark");
    } else {
      return found.text;
    }
  }
  const line = raw.subarray(0, wrong).filter((byte) => byte === LINE_FEED).length + 1;
  throw new BadLineError(`${file}, line ${line}`, quotedByte(raw[wrong]),
    "UTF-8, UTF-16 with its mark or Windows-1252 is due");
}

/**
 * The rows below the heading, without empty lines and empty cells after the last column.
 * @param {Table} table
 * @param {Kind} kind
 * @returns {Row[]}
 */
export function rowsOf(table, kind) {
  const count = kind.columns.length;
  const lines = table.lines.map(({ line, cells }) => ({ line, cells: cells.map(stripped) }))
    .filter(({ cells }) => cells.some((cell) => cell))
    .map(({ line, cells }) => ({ line, cells: withoutTail(cells, count) }));
  const columns = lines.length ? columnsOf(lines[0].cells, kind) : null;
  if (!columns) {
    const { line, cells } = lines[0] ?? { line: 1, cells: [] };
    const units = "; _percent may stand for _millionths and _thousandths, _francs for _centimes";
    throw new BadLineError(table.place(line, "any"), cells.join(","),
      `the heading is ${kind.columns.join(",")}${units}`);
  }
  for (const { line, cells } of lines) {
    if (cells.length !== count) {
      throw new BadLineError(table.place(line, "any"), cells.join(","), `${count} columns are due`);
    }
  }
  return lines.slice(1).map((line) => new Row(table, line, columns));
}

/**
 * The first cells, where all behind them are empty; else all.
 * @param {string[]} cells
 * @param {number} count
 * @returns {string[]}
 */
function withoutTail(cells, count) {
  return cells.slice(count).some((cell) => cell) ? cells : cells.slice(0, count);
}

/**
 * The columns by their own names, if the headings are theirs.
 * @param {string[]} headings
 * @param {Kind} kind
 * @returns {Map<string, Column> | null}
 */
function columnsOf(headings, kind) {
  if (headings.length !== kind.columns.length) return null;
  /** @type {Map<string, Column>} */
  const held = new Map();
  for (const [at, column] of kind.columns.entries()) {
    for (const [allowed, unit] of headingsOf(column)) {
      if (sameWord(headings[at], allowed)) held.set(column, { at, heading: headings[at], unit });
    }
  }
  return held.size === kind.columns.length ? held : null;
}

/**
 * The rows, if their first column holds just these words, each once and in this order.
 * @param {Row[]} rows
 * @param {Table} table
 * @param {string[]} firsts
 * @returns {Row[]}
 */
export function inOrder(rows, table, firsts) {
  for (const [at, row] of rows.slice(0, firsts.length).entries()) {
    const [first] = row.columns.keys();
    if (!sameWord(row.word(first), firsts[at])) row.bad(first, `${firsts[at]} is due here`);
  }
  if (rows.length > firsts.length) {
    const [first] = rows[0].columns.keys();
    rows[firsts.length].bad(first, `there are ${firsts.length} lines`);
  }
  if (rows.length < firsts.length) {
    const last = rows.at(-1)?.line ?? 1;
    throw new BadLineError(table.place(last + 1, "any"), "", `${firsts[rows.length]} is due here`);
  }
  return rows;
}
