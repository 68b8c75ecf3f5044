// What a slip of the age class does to a filing: the totals with every class one lower or higher.
// As python/xaropinto/age_shift.py.
//
// The totals of each moved book are those of the proved call; the moves and the differences are not
// proved. A book of age basis 2 that is read as basis 1 is one class too high, so its own figures
// are those of `records.lower`.

import { AGE_SHIFT } from "../../target/web/tables.js";
import * as answers from "./answers.js";
import { CHAINS, LAST_CLASS } from "./layout.js";
import { swiss } from "./number_format.js";
import { MOST_CONTRACTS } from "./plausibility.js";

/** @typedef {import("./book_values.js").BookValues} BookValues */
/** @typedef {import("./book_values.js").Chain} Chain */

/**
 * A chain without records.
 * @type {Chain}
 */
const EMPTY = AGE_SHIFT.EMPTY;

/**
 * The eight totals of a moved book; none, and why, where no book holds what was moved.
 * @typedef {{totals: bigint[] | null, whyNot: string, leftOut: number}} MovedTotals
 */
/**
 * What is moved, one class lower and one class higher.
 * @typedef {{lower: MovedTotals, higher: MovedTotals}} Move
 */
/**
 * The book's own totals; those with whole records moved; those with counts alone moved.
 * @typedef {{totals: bigint[], records: Move, counts: Move}} AgeShift
 */

/**
 * The totals of an accepted book and of the four moved ones.
 * @param {Uint8Array} book
 * @returns {AgeShift}
 */
export function ageShift(book) {
  const values = answers.read(book);
  return {
    totals: answers.totals(book).totals,
    records: { lower: moved(values, recordLower), higher: moved(values, recordHigher) },
    counts: { lower: moved(values, countLower), higher: moved(values, countHigher) },
  };
}

/**
 * The totals with every chain moved.
 * @param {BookValues} values
 * @param {(chain: Chain) => Chain} move
 * @returns {MovedTotals}
 */
function moved(values, move) {
  const chains = values.chains.map((chain) => (chain.counts.length ? move(chain) : chain));
  const leftOut = contractsOf(values.chains) - contractsOf(chains);
  const whyNot = tooMany(chains);
  if (whyNot) return { totals: null, whyNot, leftOut };
  const { totals } = answers.totals(answers.write({ ...values, chains }));
  return { totals, whyNot: "", leftOut };
}

/**
 * All contracts.
 * @param {Chain[]} chains
 * @returns {number}
 */
function contractsOf(chains) {
  return chains.flatMap((chain) => chain.counts).reduce((sum, count) => sum + count, 0);
}

/**
 * Which class would hold more contracts than a record can; empty where none does.
 * @param {Chain[]} chains
 * @returns {string}
 */
function tooMany(chains) {
  for (const [number, chain] of chains.entries()) {
    for (const [offset, count] of chain.counts.entries()) {
      if (count > MOST_CONTRACTS) {
        return `class ${chain.firstClass + offset} of ${CHAINS[number]} would hold `
          + `${swiss(count)} contracts, more than the ${swiss(MOST_CONTRACTS)} of a record`;
      }
    }
  }
  return "";
}

/**
 * A chain with another first class and other counts, whose amounts are those of the chain changed.
 * @param {Chain} chain
 * @param {number} firstClass
 * @param {number[]} counts
 * @param {(amounts: number[]) => number[]} change
 * @returns {Chain}
 */
function changed({ lapses, premiums, claims }, firstClass, counts, change) {
  return {
    firstClass, counts, lapses: change(lapses), premiums: change(premiums), claims: change(claims),
  };
}

/**
 * Every record one class lower; those of class 0 join it, and class 120 keeps its amounts.
 * @param {Chain} chain
 * @returns {Chain}
 */
function recordLower(chain) {
  const { firstClass, counts } = chain;
  const withLast = (/** @type {number[]} */ each) => [...each, each[each.length - 1]];
  if (firstClass > 0) return changed(chain, firstClass - 1, [...counts, 0], withLast);
  return changed(chain, 0, [counts[0] + counts[1], ...counts.slice(2), 0],
    (each) => withLast(each).slice(1));
}

/**
 * Every record one class higher; that of class 120 has no class left and is left out.
 * @param {Chain} chain
 * @returns {Chain}
 */
function recordHigher(chain) {
  if (chain.firstClass === LAST_CLASS) return EMPTY;
  const withoutLast = (/** @type {number[]} */ each) => each.slice(0, -1);
  return changed(chain, chain.firstClass + 1, withoutLast(chain.counts), withoutLast);
}

/**
 * Every count one class lower; those of class 0 stay. A new class takes the next's amounts.
 * @param {Chain} chain
 * @returns {Chain}
 */
function countLower(chain) {
  const { firstClass, counts } = chain;
  if (firstClass === 0) {
    return { ...chain, counts: [counts[0] + counts[1], ...counts.slice(2), 0] };
  }
  return changed(chain, firstClass - 1, [...counts, 0], (each) => [each[0], ...each]);
}

/**
 * Every count one class higher; those of class 120 stay, as the oldest do in the valuation.
 * @param {Chain} chain
 * @returns {Chain}
 */
function countHigher(chain) {
  if (chain.firstClass === LAST_CLASS) return chain;
  const { counts } = chain, last = counts.length - 1;
  return { ...chain, counts: [0, ...counts.slice(0, last - 1), counts[last - 1] + counts[last]] };
}
