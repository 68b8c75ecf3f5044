// The refusals by number: the rule that is broken, and the owner. As python/xaropinto/refusals.py,
// whose one table is in tables.js.

import { REFUSALS } from "../../target/web/tables.js";

/** The call of a rule that is worded for every call that reads a book of age basis 1. */
export const { BOOK } = REFUSALS;

/**
 * A refusal as the table has it.
 * @typedef {object} Refusal
 * @property {number} number
 * @property {string} rule
 * @property {string} owner
 */

/**
 * Each in the words that hold for all calls.
 * @type {Map<number, Refusal>}
 */
const refusals = new Map();
/**
 * Each that a call words for itself, by number and call.
 * @type {Map<string, Refusal>}
 */
const ownWords = new Map();

for (const line of REFUSALS.lines) {
  const [number, call, rule, owner] = /** @type {[number, string, string, string]} */ (line);
  if (!call) refusals.set(number, { number, rule, owner });
  // What a call leaves out is as it is for all calls, whose line is the first of a number.
  else ownWords.set(`${number} ${call}`,
    { number, rule, owner: owner || /** @type {Refusal} */ (refusals.get(number)).owner });
}

/**
 * A refusal in the words of a call.
 * @param {number} number
 * @param {string} [call]
 * @returns {Refusal}
 */
export function refusalOf(number, call = BOOK) {
  const found = ownWords.get(`${number} ${call}`) ?? ownWords.get(`${number} ${BOOK}`)
    ?? refusals.get(number);
  if (!found) throw new RangeError(`there is no refusal ${number}`);
  return found;
}
