// Numbers as spreadsheets save them: a word is one exact number, or is turned away. As
// python/xaropinto/cell_numbers.py, with whole numbers in place of its fractions.

import { CELL_NUMBERS } from "../../target/web/tables.js";
import { grouped } from "./python_text.js";

const { TWO_WAYS } = CELL_NUMBERS;
const NUMBER = new RegExp(`^(?:${CELL_NUMBERS.NUMBER})$`, "u");
/** A comma is a decimal mark in one country and parts thousands in another; so is a point. */
const TWO_READINGS = new RegExp(`^(?:${CELL_NUMBERS.TWO_READINGS})$`, "u");
const FIRST_YEAR = 2017, LAST_YEAR = 2100;

/** Why a word is not the number that is due. */
export class NoNumberError extends Error {
  name = "NoNumberError";
}

/**
 * The unit of a column, what a book counts in, and how many of these make one of the unit, a power
 * of ten.
 * @typedef {{name: string, base: string, factor: number}} Unit
 */

/** @type {Unit} */
export const PLAIN = CELL_NUMBERS.PLAIN;
/** For each ending of a heading, the unit that may stand in its place. */
const OTHER_UNITS = new Map(Object.entries(CELL_NUMBERS.OTHER_UNITS));

/**
 * A number of the base, in a unit.
 * @param {Unit} unit
 * @param {number} number
 * @returns {string}
 */
function inUnit(unit, number) {
  if (unit.factor === 1) return plain(number);
  const whole = Math.trunc(number / unit.factor), rest = Math.abs(number % unit.factor);
  const decimals = String(unit.factor).length - 1;
  const part = String(rest).padStart(decimals, "0").replace(/0+$/, "");
  const sign = number < 0 && whole === 0 ? "-" : "";
  return `${sign}${grouped(whole)}${part ? `.${part}` : ""}`;
}

/**
 * A number as people read it; years have no separator.
 * @param {number} number
 * @returns {string}
 */
function plain(number) {
  return FIRST_YEAR <= number && number <= LAST_YEAR ? String(number) : grouped(number);
}

/**
 * The headings that a column may have, each with the unit of its numbers.
 * @param {string} column
 * @returns {[string, Unit][]}
 */
export function headingsOf(column) {
  const at = column.lastIndexOf("_"), base = column.slice(at + 1);
  const other = OTHER_UNITS.get(base);
  if (!other) return [[column, PLAIN]];
  const stem = column.slice(0, at);
  return [[column, { name: base, base, factor: 1 }], [`${stem}_${other.name}`, other]];
}

/**
 * The number of a word, in the book's own unit; `NoNumberError` where it is none or out of range.
 * @param {string} word
 * @param {Unit} unit
 * @param {number} low
 * @param {number} high
 * @returns {number}
 */
export function numberOf(word, unit, low, high) {
  if (TWO_READINGS.test(word)) throw new NoNumberError(TWO_WAYS);
  const found = NUMBER.exec(word)?.groups;
  if (!found || (found.part && unit.factor === 1)) throw new NoNumberError(due(unit, low, high));
  const whole = found.whole.replace(/['\u2019]/g, ""), part = found.part ?? "";
  const scaled = BigInt(whole + part) * BigInt(unit.factor) * (found.sign ? -1n : 1n);
  const parts = 10n ** BigInt(part.length);
  if (scaled % parts) throw new NoNumberError(`this is no whole number of ${unit.base}`);
  const number = scaled / parts;
  if (number < low || number > high) throw new NoNumberError(due(unit, low, high));
  return Number(number);
}

/**
 * What a cell must hold.
 * @param {Unit} unit
 * @param {number} low
 * @param {number} high
 * @returns {string}
 */
function due(unit, low, high) {
  const kind = unit.factor === 1 ? "a whole number" : "a number";
  const name = unit.name ? ` ${unit.name}` : "";
  if (low === high) return `${inUnit(unit, low)}${name} is due`;
  return `${kind} from ${inUnit(unit, low)} to ${inUnit(unit, high)}${name} is due`;
}
