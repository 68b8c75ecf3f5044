// The words of `xaropinto check`: what it prints, and what it reports beside that. As
// python/xaropinto/cli/check.py.

import { CLI_CHECK } from "../../target/web/tables.js";
import * as answers from "./answers.js";
import { allFaults } from "./faults.js";
import { counted, francs, percent } from "./number_format.js";
import { groupMeans } from "./plausibility.js";

/** @typedef {import("./faults.js").Faults} Faults */
/** @typedef {import("./plausibility.js").GroupMeans} GroupMeans */

const { COPY_WORDS } = CLI_CHECK;

/**
 * A file's verdict, with what its product groups hold where it is accepted; with `every`, the
 * faults of one that is refused. `reported` is what the command writes to standard error, but for
 * warnings.
 * @param {string} path
 * @param {Uint8Array} book
 * @param {boolean} [every]
 * @returns {{printed: string[], reported: string[]}}
 */
export function checkFile(path, book, every = false) {
  try {
    const n = answers.check(book);
    const groups = groupMeans(answers.read(book)).filter(({ contracts }) => contracts);
    const lines = [`accepted ${n}`, ...groups.map(meansLine)];
    return { printed: lines.map((line) => `${path}: ${line}`), reported: [] };
  } catch (refused) {
    if (!(refused instanceof answers.RefusedError)) throw refused;
    const verdict = `${path}: refused ${refused.number} ${refused.place}`;
    if (!every) return { printed: [verdict], reported: [`${path}: ${refused.words}`] };
    const faults = allFaults(book);
    const lines = faults.found.map(({ number, place, words }) =>
      `${path}: ${number} ${place}: ${words}`);
    return { printed: [verdict, ...lines], reported: [`${path}: ${faultsLine(faults)}`] };
  }
}

/**
 * How many there are, and of what.
 * @param {Faults} faults
 * @returns {string}
 */
export function faultsLine(faults) {
  let words = counted(faults.found.length, "fault", "faults");
  if (faults.found.length > 1) words += `; ${COPY_WORDS}`;
  if (faults.unlinked) {
    const records = counted(faults.unlinked, "record", "records");
    words += `; ${records} of the last copy in no chain, not checked`;
  }
  return faults.complete ? words : `${words}; the search stopped here, and there may be more`;
}

/**
 * A product group that has contracts, in francs and percent.
 * @param {GroupMeans} means
 * @returns {string}
 */
export function meansLine(means) {
  const { group, contracts, premium, claims, lapse } = means;
  return `${group}: ${counted(contracts, "contract", "contracts")}, mean premium `
    + `${francs(premium ?? 0)} francs, mean claims ${francs(claims ?? 0)} francs, mean lapse `
    + `${percent(lapse ?? 0)} percent`;
}
