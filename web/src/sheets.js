// A book as five tables of a spreadsheet, each a file of separated values. As
// python/xaropinto/sheets.py.

import { SHEETS } from "../../target/web/tables.js";
import { chainLists } from "./book_values.js";
import {
  CURVE_RATES, GROUPS, LAST_CLASS, NO_CLASS, Record, SEXES, SUBGROUPS, headerFields, percentages,
} from "./layout.js";
import { folded } from "./python_text.js";
import { BadLineError, inOrder, rowsOf, savedTable } from "./tables.js";

/** @typedef {import("./book_values.js").BookValues} BookValues */
/** @typedef {import("./book_values.js").Chain} Chain */
/** @typedef {import("./layout.js").Field} Field */
/** @typedef {import("./tables.js").Kind} Kind */
/** @typedef {import("./tables.js").Row} Row */
/** @typedef {import("./tables.js").Table} Table */

const { HEADER, COST_RATES, CURVE, MORTALITY, PORTFOLIO } = SHEETS;
/** @type {Kind[]} */
export const KINDS = [HEADER, COST_RATES, CURVE, MORTALITY, PORTFOLIO];
/** The rows of the header; the age basis may be left out, and is 1 then. */
const { EDITION, AGE_BASIS, SST_YEAR, PERCENTAGES, NO_PERCENTAGE } = SHEETS;
/** @type {{[ageBasis: string]: string}} */
const BASIS_RULE = SHEETS.BASIS_RULE;
const RANGES = new Map(headerFields().map((field) => [field.name, field]));

/**
 * Where a table is found by its kind.
 * @typedef {(kind: Kind) => Table} Tables
 */
/**
 * What is written into a table, below its heading.
 * @typedef {(string | number)[][]} Lines
 */
/**
 * What the header says.
 * @typedef {{edition: number, ageBasis: number, year: number, percentages: number[]}} Header
 */

/** A file of the five is not there. */
export class MissingFileError extends Error {
  name = "MissingFileError";
}

/**
 * The range of a field of header or tables.
 * @param {string} name
 * @returns {Field}
 */
function rangeOf(name) {
  return /** @type {Field} */ (RANGES.get(name));
}

/**
 * The tables of files of separated values, by their names.
 * @param {{[name: string]: Uint8Array}} files
 * @returns {Tables}
 */
export function folderTables(files) {
  return (kind) => {
    const name = csvFile(kind);
    if (!files[name]) throw new MissingFileError(`${name}: No such file or directory`);
    return savedTable(name, files[name]);
  };
}

/**
 * The name of a table's file.
 * @param {Kind} kind
 * @returns {string}
 */
export function csvFile(kind) {
  return `${kind.name}.csv`;
}

/**
 * The values of five tables, on age basis 1; `BadLineError` for the first fault.
 * @param {Tables} tables
 * @returns {BookValues}
 */
export function readSheets(tables) {
  const { edition, ageBasis, year, percentages: percents } = readHeader(tables(HEADER));
  const costRates = ordered(tables(COST_RATES), COST_RATES, GROUPS).map((row, at) =>
    row.ranged("cost_rate_millionths", rangeOf(`cost rate of ${GROUPS[at]}`)));
  const years = numbered(1, CURVE_RATES);
  const curve = ordered(tables(CURVE), CURVE, years).map((row, at) =>
    row.ranged("rate_millionths", rangeOf(`curve rate of year ${years[at]}`)));
  const rows = ordered(tables(MORTALITY), MORTALITY, numbered(0, LAST_CLASS));
  const mortality = SEXES.flatMap((people) => rows.map((row, at) =>
    row.ranged(`${people}_millionths`, rangeOf(`mortality of ${people}, class ${at}`))));
  const chains = readPortfolio(tables(PORTFOLIO), ageBasis);
  return { edition, percentages: percents, year, costRates, curve, mortality, chains };
}

/**
 * The numbers of a range as words.
 * @param {number} first
 * @param {number} last
 * @returns {string[]}
 */
function numbered(first, last) {
  return Array.from({ length: last - first + 1 }, (_, at) => String(first + at));
}

/**
 * The rows of a table whose first column holds these words.
 * @param {Table} table
 * @param {Kind} kind
 * @param {string[]} firsts
 * @returns {Row[]}
 */
function ordered(table, kind, firsts) {
  return inOrder(rowsOf(table, kind), table, firsts);
}

/**
 * Edition, age basis, SST year and the two percentages.
 * @param {Table} table
 * @returns {Header}
 */
function readHeader(table) {
  const rows = rowsOf(table, HEADER);
  const hasBasis = rows.some((row) => folded(row.word("field")) === AGE_BASIS);
  const names = [EDITION, ...(hasBasis ? [AGE_BASIS] : []), SST_YEAR, ...PERCENTAGES];
  const held = inOrder(rows, table, names);
  const rowOf = (/** @type {string} */ name) => held[names.indexOf(name)];
  const edition = rowOf(EDITION).ranged("value", rangeOf("edition"));
  const ageBasis = hasBasis ? rowOf(AGE_BASIS).number("value", 1, 2) : 1;
  const year = rowOf(SST_YEAR).ranged("value", rangeOf("SST year"));
  const { low, high } = edition === 2
    ? percentages()[0] : { low: NO_PERCENTAGE, high: NO_PERCENTAGE };
  const percents = PERCENTAGES.map((name) => rowOf(name).number("value", low, high));
  return { edition, ageBasis, year, percentages: percents };
}

/**
 * The 14 chains on age basis 1; lines in any order, each class once and none left out.
 * @param {Table} table
 * @param {number} ageBasis
 * @returns {Chain[]}
 */
function readPortfolio(table, ageBasis) {
  /** @type {Map<number, Row>[]} */
  const held = Array.from({ length: SUBGROUPS.length * SEXES.length }, () => new Map());
  for (const row of rowsOf(table, PORTFOLIO)) {
    const subgroup = row.choice("subgroup", SUBGROUPS);
    const chain = held[SEXES.length * subgroup + row.choice("sex", SEXES)];
    const ageClass = classOnBasis1(row, ageBasis), other = chain.get(ageClass);
    if (other) row.bad("class", `this class of the chain stands in line ${other.line} already`);
    chain.set(ageClass, row);
  }
  return held.map((rows) => chainOfRows(rows, ageBasis));
}

/**
 * A row's class; on age basis 2 it is one less than what the row says.
 * @param {Row} row
 * @param {number} ageBasis
 * @returns {number}
 */
function classOnBasis1(row, ageBasis) {
  const shift = ageBasis - 1;
  try {
    return row.number("class", shift, LAST_CLASS + shift) - shift;
  } catch (wrong) {
    if (!(wrong instanceof BadLineError)) throw wrong;
    throw new BadLineError(wrong.place, wrong.value, `${wrong.rule}: ${BASIS_RULE[ageBasis]}`);
  }
}

/**
 * A chain of its rows by class on basis 1.
 * @param {Map<number, Row>} rows
 * @param {number} ageBasis
 * @returns {Chain}
 */
function chainOfRows(rows, ageBasis) {
  const firstClass = Math.min(NO_CLASS, ...rows.keys()), shift = ageBasis - 1;
  /** @type {Row[]} */
  const inChain = [];
  for (let ageClass = firstClass; ageClass <= LAST_CLASS; ageClass++) {
    const row = rows.get(ageClass);
    if (row) inChain.push(row);
    else {
      inChain[inChain.length - 1].bad("class", `class ${ageClass + shift} of this chain is `
        + `missing; a chain goes up to ${LAST_CLASS + shift}`);
    }
  }
  const [counts, lapses, premiums, claims] = new Record(1, 0).fields().map((field, at) =>
    inChain.map((row) => row.ranged(PORTFOLIO.columns[3 + at], field)));
  return { firstClass, counts, lapses, premiums, claims };
}

/**
 * The five tables of a book, below their headings.
 * @param {BookValues} values
 * @returns {Map<Kind, Lines>}
 */
export function writtenTables(values) {
  const classes = Array.from({ length: NO_CLASS }, (_, ageClass) => ageClass);
  const byClass = classes.map((ageClass) =>
    [ageClass, ...SEXES.map((_, sex) => values.mortality[sex * NO_CLASS + ageClass])]);
  const portfolio = values.chains.flatMap((chain, number) => chain.counts.map((_, offset) => [
    SUBGROUPS[Math.floor(number / 2)], SEXES[number % 2], chain.firstClass + offset,
    ...chainLists(chain).map((each) => each[offset])]));
  /** @type {[Kind, Lines][]} */
  const tables = [
    [HEADER, [[EDITION, values.edition], [AGE_BASIS, 1], [SST_YEAR, values.year],
      ...PERCENTAGES.map((name, sex) => [name, values.percentages[sex]])]],
    [COST_RATES, GROUPS.map((group, at) => [group, values.costRates[at]])],
    [CURVE, values.curve.map((rate, at) => [at + 1, rate])],
    [MORTALITY, byClass],
    [PORTFOLIO, portfolio],
  ];
  return new Map(tables);
}

/**
 * The files of a folder, by their names.
 * @param {BookValues} values
 * @returns {{[name: string]: Uint8Array}}
 */
export function csvFiles(values) {
  const encoder = new TextEncoder();
  return Object.fromEntries(Array.from(writtenTables(values), ([kind, lines]) => [csvFile(kind),
    encoder.encode([kind.columns, ...lines].map((line) => `${line.join(",")}\n`).join(""))]));
}
