// Numbers as Swiss readers write them. As python/xaropinto/number_format.py.

import { fixed, fixedGrouped, grouped } from "./python_text.js";

/**
 * With an apostrophe at each thousand, as 26'105'519'497; without decimals the number is whole.
 * @param {number | bigint} number
 * @param {number} [decimals]
 * @returns {string}
 */
export function swiss(number, decimals = 0) {
  const text = decimals ? fixedGrouped(number, decimals) : grouped(number);
  return text.replaceAll(",", "'");
}

/**
 * Centimes in million francs with three decimals, halves away from zero.
 * @param {number | bigint} centimes
 * @returns {string}
 */
export function millionFrancs(centimes) {
  const whole = BigInt(centimes), size = whole < 0n ? -whole : whole;
  const thousands = (size + 50_000n) / 100_000n;
  const sign = whole < 0n && thousands ? "-" : "";
  return `${sign}${swiss(thousands / 1_000n)}.${String(thousands % 1_000n).padStart(3, "0")}`;
}

/**
 * Centimes in francs.
 * @param {number} centimes
 * @returns {string}
 */
export function francs(centimes) {
  return swiss(centimes / 100, 2);
}

/**
 * Millionths in percent.
 * @param {number} millionths
 * @returns {string}
 */
export function percent(millionths) {
  return fixed(millionths / 10_000, 2);
}

/**
 * A number with its noun: 1 linked record, 2 linked records.
 * @param {number | bigint} number
 * @param {string} one
 * @param {string} many
 * @returns {string}
 */
export function counted(number, one, many) {
  return `${swiss(number)} ${Number(number) === 1 ? one : many}`;
}
