// What changed between two years' books: chains, means of the groups, rates, mortality, curve. As
// python/xaropinto/book_changes.py.

import { BOOK_CHANGES } from "../../target/web/tables.js";
import * as answers from "./answers.js";
import { CHAINS, GROUPS, SEXES } from "./layout.js";
import { groupMeans, mortalityOf, unlinkedOf } from "./plausibility.js";

const { PERCENTAGES, TENTH } = BOOK_CHANGES;

/** @typedef {import("./book_values.js").BookValues} BookValues */
/** @typedef {import("./plausibility.js").GroupMeans} GroupMeans */
/** @typedef {import("./plausibility.js").Unlinked} Unlinked */

/**
 * A product group in both years, and this year's means over last year's.
 * @typedef {{last: GroupMeans, this: GroupMeans, premiumRatio: number | null,
 *   claimsRatio: number | null, lapseRatio: number | null}} GroupChange
 */

/**
 * A number in both years.
 * @typedef {{name: string, last: number, this: number}} NumberChange
 */

/**
 * All that changed; `mortality` has the classes where it moved by more than a tenth.
 * @typedef {{vanished: string[], appeared: string[], unlinkedLast: Unlinked,
 *   unlinkedThis: Unlinked, groups: GroupChange[], costRates: NumberChange[],
 *   percentages: NumberChange[], mortality: NumberChange[], curve: NumberChange[]}} BookChanges
 */

/**
 * The changes of two accepted books.
 * @param {Uint8Array} last
 * @param {Uint8Array} current
 * @returns {BookChanges}
 */
export function changesBetween(last, current) {
  const old = answers.read(last), now = answers.read(current), after = groupMeans(now);
  const held = CHAINS.map((name, at) => ({
    name, before: old.chains[at].counts.length > 0, now: now.chains[at].counts.length > 0,
  }));
  return {
    vanished: held.filter((each) => each.before && !each.now).map((each) => each.name),
    appeared: held.filter((each) => each.now && !each.before).map((each) => each.name),
    unlinkedLast: unlinkedOf(last), unlinkedThis: unlinkedOf(current),
    groups: groupMeans(old).map((each, at) => groupChange(each, after[at])),
    costRates: numberChanges(GROUPS, old.costRates, now.costRates),
    percentages: numberChanges(SEXES, percentagesOf(old), percentagesOf(now)),
    mortality: mortalityChanges(old, now),
    curve: numberChanges(old.curve.map((_, at) => String(at + 1)), old.curve, now.curve),
  };
}

/**
 * Numbers of both years, by name.
 * @param {string[]} names
 * @param {number[]} last
 * @param {number[]} current
 * @returns {NumberChange[]}
 */
function numberChanges(names, last, current) {
  return names.map((name, at) => ({ name, last: last[at], this: current[at] }));
}

/**
 * A group's means with their ratios.
 * @param {GroupMeans} last
 * @param {GroupMeans} current
 * @returns {GroupChange}
 */
export function groupChange(last, current) {
  return {
    last, this: current, premiumRatio: ratio(current.premium, last.premium),
    claimsRatio: ratio(current.claims, last.claims), lapseRatio: ratio(current.lapse, last.lapse),
  };
}

/**
 * One over the other, where both are there and the second is not 0.
 * @param {number | null} current
 * @param {number | null} last
 */
export function ratio(current, last) {
  return current !== null && last ? current / last : null;
}

/**
 * The mortality percentages that the valuation takes.
 * @param {BookValues} values
 */
export function percentagesOf(values) {
  return values.edition === 2 ? values.percentages : PERCENTAGES;
}

/**
 * Where mortality moved by more than a tenth of last year's.
 * @param {BookValues} old
 * @param {BookValues} now
 */
export function mortalityChanges(old, now) {
  return SEXES.flatMap((people, sex) => {
    const before = mortalityOf(old, sex), after = mortalityOf(now, sex);
    return numberChanges(before.map((_, ageClass) => `${people} ${ageClass}`), before, after)
      .filter((each) => TENTH * Math.abs(each.this - each.last) > each.last);
  });
}
