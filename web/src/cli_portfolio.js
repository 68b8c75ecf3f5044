// The words of `xaropinto classes` and `xaropinto age-shift`. As python/xaropinto/cli/portfolio.py.

import { CLI_PORTFOLIO } from "../../target/web/tables.js";
import { SETTINGS } from "./layout.js";
import { counted } from "./number_format.js";
import { contractsByClass } from "./portfolio.js";

/** @typedef {import("./age_shift.js").AgeShift} AgeShift */
/** @typedef {import("./age_shift.js").Move} Move */
/** @typedef {import("./age_shift.js").MovedTotals} MovedTotals */
/** @typedef {import("./book_values.js").BookValues} BookValues */

const { HEADING, RECORDS, COUNTS } = CLI_PORTFOLIO;

/**
 * Two columns: class and contracts, of a product group and sex or of all.
 * @param {BookValues} values
 * @param {string} [group]
 * @param {string} [sex]
 * @returns {string}
 */
export function classesText(values, group = "", sex = "") {
  const lines = contractsByClass(values, group, sex).map((count, at) => `${at},${count}\n`);
  return `class,contracts\n${lines.join("")}`;
}

/**
 * A block for whole records, then one for counts alone.
 * @param {AgeShift} shift
 * @returns {string}
 */
export function ageShiftText(shift) {
  return [...block(RECORDS, shift.totals, shift.records), "",
    ...block(COUNTS, shift.totals, shift.counts), ""].join("\n");
}

/**
 * The totals with those moved, and what is to be known of these.
 * @param {string} title
 * @param {bigint[]} own
 * @param {Move} move
 * @returns {string[]}
 */
function block(title, own, move) {
  const lines = own.map((total, setting) =>
    [setting, SETTINGS[setting], ...figuresOf(move, setting, total)].join(","));
  return [title, HEADING, ...lines, ...remarksOf(move)];
}

/**
 * A setting's total, both moved ones, and each of these less the total; nothing where there is
 * none.
 * @param {Move} move
 * @param {number} setting
 * @param {bigint} total
 * @returns {(bigint | "")[]}
 */
export function figuresOf(move, setting, total) {
  const sides = [move.lower, move.higher].map((side) => side.totals?.[setting] ?? "");
  return [total, ...sides, ...sides.map((side) => (side === "" ? "" : side - total))];
}

/**
 * What is to be known of both columns.
 * @param {Move} move
 * @returns {string[]}
 */
export function remarksOf(move) {
  return [...remarks("one_class_lower", move.lower), ...remarks("one_class_higher", move.higher)];
}

/**
 * Why a column is empty, or what it leaves out.
 * @param {string} column
 * @param {MovedTotals} side
 * @returns {string[]}
 */
function remarks(column, side) {
  if (side.totals === null) return [`${column} cannot be shown: ${side.whyNot}`];
  if (!side.leftOut) return [];
  const contracts = counted(side.leftOut, "contract", "contracts");
  return [`${column} leaves out ${contracts} of class 120: no class is above it`];
}
