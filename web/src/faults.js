// Every fault of a file. Each is a refusal of the proved check: the first one is the file's, each
// later one that of a copy in which the faults before it are corrected. No copy is written or
// valued. As python/xaropinto/faults.py.

import { CorrectedCopy, TOO_SHORT } from "./corrected_copy.js";
import { explain } from "./messages.js";
import { refusalOf } from "./refusals.js";

/**
 * A refusal: its number and place, both in words, and who is responsible.
 * @typedef {{number: number, place: number, words: string, owner: string}} Fault
 */
/**
 * In the order in which they were found; whether the last copy is accepted; and how many of its
 * records are in no chain, so that nothing is said of them.
 * @typedef {{found: Fault[], complete: boolean, unlinked: number}} Faults
 */

/**
 * Every fault of a file, none where it is accepted.
 *
 * It ends by itself, as `CorrectedCopy` says; it is stopped after as many faults as there are
 * fields, and after the first where the file is too short to have fields.
 * @param {Uint8Array} book
 * @returns {Faults}
 */
export function allFaults(book) {
  const copy = new CorrectedCopy(book), most = copy.fieldCount();
  /** @type {Fault[]} */
  const found = [];
  while (found.length < most) {
    const verdict = copy.verdict(), number = Number(verdict.refusal), place = Number(verdict.place);
    if (!number) return { found, complete: true, unlinked: copy.unlinkedCount() };
    const words = explain(number, place, copy.bytes, copy.call());
    found.push({ number, place, words, owner: refusalOf(number, copy.call()).owner });
    if (number === TOO_SHORT) break;
    copy.correct(number, place);
  }
  return { found, complete: false, unlinked: 0 };
}
