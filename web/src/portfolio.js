// Contracts by class. As python/xaropinto/portfolio.py.

import { PORTFOLIO } from "../../target/web/tables.js";
import { LAST_CLASS, SEXES, SUBGROUPS } from "./layout.js";

/** @typedef {import("./book_values.js").BookValues} BookValues */

/**
 * The product group of each subgroup.
 * @type {{[subgroup: string]: string}}
 */
export const GROUP_OF = PORTFOLIO.GROUP_OF;

/**
 * The contracts of each class, of a product group and sex or of all.
 * @param {BookValues} values
 * @param {string} [group]
 * @param {string} [sex]
 * @returns {number[]}
 */
export function contractsByClass(values, group = "", sex = "") {
  const counted = Array(LAST_CLASS + 1).fill(0);
  for (const [number, chain] of values.chains.entries()) {
    const subgroup = SUBGROUPS[Math.floor(number / 2)], people = SEXES[number % 2];
    if (["", GROUP_OF[subgroup]].includes(group) && ["", people].includes(sex)) {
      for (const [offset, count] of chain.counts.entries()) {
        counted[chain.firstClass + offset] += count;
      }
    }
  }
  return counted;
}
