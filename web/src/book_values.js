// A book's values and lists, chain by chain: between tables and the calls Write and Read. As
// python/xaropinto/book_values.py; the values are plain objects, their methods functions.

import { CHAINS, NO_CLASS } from "./layout.js";

/**
 * The lists of one chain from its first class to 120; a chain without records starts at 121.
 * @typedef {object} Chain
 * @property {number} firstClass
 * @property {number[]} counts
 * @property {number[]} lapses
 * @property {number[]} premiums
 * @property {number[]} claims
 */

/**
 * The header's values, and 14 chains in head order.
 * @typedef {object} BookValues
 * @property {number} edition
 * @property {number[]} percentages
 * @property {number} year
 * @property {number[]} costRates
 * @property {number[]} curve
 * @property {number[]} mortality
 * @property {Chain[]} chains
 */

/**
 * The values as the calls take and give them.
 * @typedef {object} Values
 * @property {bigint} edition
 * @property {ArrayLike<bigint>} percentages
 * @property {bigint} year
 * @property {ArrayLike<bigint>} costRates
 * @property {ArrayLike<bigint>} curve
 * @property {ArrayLike<bigint>} mortality
 * @property {ArrayLike<bigint>} firstClasses
 */

/**
 * A chain's four lists, in the order of the calls.
 * @param {Chain} chain
 * @returns {number[][]}
 */
export function chainLists(chain) {
  return [chain.counts, chain.lapses, chain.premiums, chain.claims];
}

/**
 * The header's values as the calls take them.
 * @param {BookValues} values
 * @returns {Values}
 */
export function headerOf(values) {
  return {
    edition: BigInt(values.edition),
    percentages: values.percentages.map(BigInt),
    year: BigInt(values.year),
    costRates: values.costRates.map(BigInt),
    curve: values.curve.map(BigInt),
    mortality: values.mortality.map(BigInt),
    firstClasses: values.chains.map((chain) => BigInt(chain.firstClass)),
  };
}

/**
 * Counts, lapses, premiums and claims, the chains end to end.
 * @param {BookValues} values
 * @returns {BigUint64Array[]}
 */
export function listsOf(values) {
  return [0, 1, 2, 3].map((kind) =>
    BigUint64Array.from(values.chains.flatMap((chain) => chainLists(chain)[kind].map(BigInt))));
}

/**
 * How many records the book of these values has.
 * @param {BookValues} values
 * @returns {number}
 */
export function recordsIn(values) {
  return values.chains.reduce((sum, chain) => sum + NO_CLASS - chain.firstClass, 0);
}

/**
 * The chains of the lists that stand end to end.
 * @param {Values} values
 * @param {ArrayLike<bigint>[]} lists
 * @returns {BookValues}
 */
export function takenApart(values, lists) {
  let at = 0;
  const all = lists.map(numbers);
  const chains = numbers(values.firstClasses).slice(0, CHAINS.length).map((firstClass) => {
    const until = at + NO_CLASS - firstClass;
    const [counts, lapses, premiums, claims] = all.map((each) => each.slice(at, until));
    at = until;
    return { firstClass, counts, lapses, premiums, claims };
  });
  return {
    edition: Number(values.edition),
    percentages: numbers(values.percentages),
    year: Number(values.year),
    costRates: numbers(values.costRates),
    curve: numbers(values.curve),
    mortality: numbers(values.mortality),
    chains,
  };
}

/**
 * Numbers of a book, each of which is far below 2^53.
 * @param {ArrayLike<bigint>} held
 * @returns {number[]}
 */
function numbers(held) {
  return Array.from(held, Number);
}
