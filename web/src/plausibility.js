// Warnings about a book that is accepted: it can be valued, and something about it is unusual. As
// python/xaropinto/plausibility.py, whose names, thresholds and reasons are in tables.js.
//
// A warning is no refusal. Sums are Numbers: 1,694 records of 100,000 contracts with 10,000,000
// centimes each are below 2^53.

import { PLAUSIBILITY } from "../../target/web/tables.js";
import * as answers from "./answers.js";
import { nextField, recordOf } from "./chains.js";
import {
  GROUPS, HEADER_BYTES, LAST_CLASS, RECORD_BYTES, SEXES, SUBGROUPS, heads,
} from "./layout.js";
import { counted, francs, percent, swiss } from "./number_format.js";
import { GROUP_OF, contractsByClass } from "./portfolio.js";
import { fixed } from "./python_text.js";

/** @typedef {import("./book_values.js").BookValues} BookValues */

/** The most that a record holds. */
export const { MOST_CONTRACTS } = PLAUSIBILITY;
const { LEAST_PREMIUM, MOST_PREMIUM, CLAIMS_FACTOR, HALF, OLD_CLASS, OLD_PERCENT } = PLAUSIBILITY;
const { RISING_FROM, RISING_TO, RISING_STEP } = PLAUSIBILITY;

/**
 * A warning: its name, and what was found.
 * @typedef {{name: string, text: string}} Note
 */
/**
 * A product group's contracts, and their means: centimes a year, and millionths of lapse.
 * @typedef {object} GroupMeans
 * @property {string} group
 * @property {number} contracts
 * @property {number | null} premium
 * @property {number | null} claims
 * @property {number | null} lapse
 */
/**
 * Records that no chain links and whose count is one that a record may have.
 * @typedef {{records: number, contracts: number}} Unlinked
 */
/**
 * What the rules read; the day is as 2026-11-17.
 * @typedef {{book: Uint8Array, values: BookValues, means: GroupMeans[], today: string}} Facts
 */

/**
 * The clock's day, as 2026-11-17.
 * @returns {string}
 */
export function clockDay() {
  const now = new Date();
  const [month, day] = [now.getMonth() + 1, now.getDate()].map((each) =>
    String(each).padStart(2, "0"));
  return `${String(now.getFullYear()).padStart(4, "0")}-${month}-${day}`;
}

/**
 * The warnings about an accepted book; `today`, as 2026-11-17, is the clock's day unless given.
 * @param {Uint8Array} book
 * @param {string} [today]
 * @returns {Note[]}
 */
export function notesOf(book, today = clockDay()) {
  const values = answers.read(book);
  const facts = { book, values, means: groupMeans(values), today };
  return PLAUSIBILITY.RULES.flatMap(({ name }) =>
    FINDERS[name](facts).map((text) => ({ name, text })));
}

/**
 * Contracts and means of the five product groups; no means where there are no contracts.
 * @param {BookValues} values
 * @returns {GroupMeans[]}
 */
export function groupMeans(values) {
  const sums = new Map(GROUPS.map((group) => [group, [0, 0, 0, 0]]));
  for (const [number, chain] of values.chains.entries()) {
    const row = /** @type {number[]} */ (sums.get(GROUP_OF[SUBGROUPS[Math.floor(number / 2)]]));
    for (const [at, count] of chain.counts.entries()) {
      row[0] += count;
      row[1] += count * chain.premiums[at];
      row[2] += count * chain.claims[at];
      row[3] += count * chain.lapses[at];
    }
  }
  return Array.from(sums, ([group, [contracts, ...rest]]) => {
    const [premium, claims, lapse] = rest.map((sum) => (contracts ? sum / contracts : null));
    return { group, contracts, premium, claims, lapse };
  });
}

/**
 * The numbers of the records that a chain of an accepted book links.
 * @param {Uint8Array} book
 * @returns {Set<number>}
 */
function linkedRecords(book) {
  const found = new Set();
  for (const head of heads()) {
    let number = head.read(book);
    while (number) {
      found.add(number);
      number = nextField(recordOf(number)).read(book);
    }
  }
  return found;
}

/**
 * The records with contracts that are in no chain.
 * @param {Uint8Array} book
 * @returns {Unlinked}
 */
export function unlinkedOf(book) {
  const linked = linkedRecords(book), unlinked = { records: 0, contracts: 0 };
  const last = Math.floor((book.length - HEADER_BYTES) / RECORD_BYTES);
  for (let number = 1; number <= last; number++) {
    const count = linked.has(number) ? 0 : recordOf(number).fields()[0].read(book);
    if (0 < count && count <= MOST_CONTRACTS) {
      unlinked.records += 1;
      unlinked.contracts += count;
    }
  }
  return unlinked;
}

/**
 * Contracts that no figure counts.
 * @param {Facts} facts
 * @returns {string[]}
 */
function findUnlinked(facts) {
  const unlinked = unlinkedOf(facts.book);
  if (!unlinked.records) return [];
  const records = counted(unlinked.records, "record", "records");
  const contracts = counted(unlinked.contracts, "contract", "contracts");
  return [`${records} with ${contracts} ${unlinked.records === 1 ? "is" : "are"} in no chain`];
}

/**
 * Francs written as centimes, or the other way round.
 * @param {Facts} facts
 * @returns {string[]}
 */
function findPremium(facts) {
  return facts.means.flatMap(({ group, premium }) =>
    premium === null || (LEAST_PREMIUM <= premium && premium <= MOST_PREMIUM)
      ? [] : [`${group}: mean premium ${francs(premium)} francs a year`]);
}

/**
 * Claims in another unit than premiums, or of other contracts.
 * @param {Facts} facts
 * @returns {string[]}
 */
function findClaims(facts) {
  return facts.means.flatMap(({ group, premium, claims }) => {
    if (premium === null || claims === null) return [];
    if (CLAIMS_FACTOR * claims >= premium && claims <= CLAIMS_FACTOR * premium) return [];
    return [`${group}: mean claims ${francs(claims)} francs a year, mean premium `
      + `${francs(premium)}`];
  });
}

/**
 * No lapse at all, or percent written as millionths.
 * @param {Facts} facts
 * @returns {string[]}
 */
function findLapse(facts) {
  return facts.means.flatMap(({ group, lapse }) => (lapse === null || (0 < lapse && lapse <= HALF)
    ? [] : [`${group}: mean lapse ${percent(lapse)} percent a year`]));
}

/**
 * A rate of another unit.
 * @param {Facts} facts
 * @returns {string[]}
 */
function findCostRate(facts) {
  return GROUPS.flatMap((group, at) => {
    const rate = facts.values.costRates[at];
    return rate > HALF ? [`${group}: cost rate ${percent(rate)} percent of the premium`] : [];
  });
}

/**
 * The mortality of men (0) or women (1) by class.
 * @param {BookValues} values
 * @param {number} sex
 * @returns {number[]}
 */
export function mortalityOf(values, sex) {
  return values.mortality.slice(sex * (LAST_CLASS + 1), (sex + 1) * (LAST_CLASS + 1));
}

/**
 * A table that is empty, upside down or cut short.
 * @param {Facts} facts
 * @returns {string[]}
 */
function findMortalityRise(facts) {
  return SEXES.flatMap((people, sex) => {
    const table = mortalityOf(facts.values, sex);
    for (let age = RISING_FROM; age < RISING_TO; age += RISING_STEP) {
      if (table[age + RISING_STEP] <= table[age]) {
        return [`mortality of ${people} does not rise from class ${age} `
          + `(${swiss(table[age])} millionths) to class ${age + RISING_STEP} `
          + `(${swiss(table[age + RISING_STEP])})`];
      }
    }
    return [];
  });
}

/**
 * The two columns exchanged.
 * @param {Facts} facts
 * @returns {string[]}
 */
function findMortalitySexes(facts) {
  const [men, women] = SEXES.map((_, sex) => mortalityOf(facts.values, sex));
  const above = women.filter((rate, at) => rate > men[at]).length;
  return 2 * above > men.length
    ? [`mortality of women is above that of men in ${above} of ${men.length} classes`] : [];
}

/**
 * Rates that were not filled in.
 * @param {Facts} facts
 * @returns {string[]}
 */
function findCurve(facts) {
  return facts.values.curve.some((rate) => rate) ? [] : ["every rate of the curve is 0"];
}

/**
 * Classes that are no ages.
 * @param {Facts} facts
 * @returns {string[]}
 */
function findOld(facts) {
  const byClass = contractsByClass(facts.values);
  const old = sum(byClass.slice(OLD_CLASS + 1)), total = sum(byClass);
  if (100 * old <= OLD_PERCENT * total) return [];
  return [`contracts above class ${OLD_CLASS}: ${swiss(old)} of ${swiss(total)}, `
    + `${fixed((100 * old) / total, 1)} percent`];
}

/**
 * The sum of numbers.
 * @param {number[]} numbers
 * @returns {number}
 */
function sum(numbers) {
  return numbers.reduce((above, each) => above + each, 0);
}

/**
 * The other sex's chains forgotten.
 * @param {Facts} facts
 * @returns {string[]}
 */
function findOneSex(facts) {
  const [men, women] = SEXES.map((people) => sum(contractsByClass(facts.values, "", people)));
  if ((men > 0) === (women > 0)) return [];
  return [`all contracts are of ${SEXES[men ? 0 : 1]}: ${swiss(men + women)}`];
}

/**
 * A book of another year.
 * @param {Facts} facts
 * @returns {string[]}
 */
function findYear(facts) {
  const { year } = facts.values, thisYear = Number(facts.today.split("-")[0]);
  return Math.abs(year - thisYear) > 1 ? [`SST year ${year}; today is ${facts.today}`] : [];
}

/**
 * How each warning is found, by its name.
 * @type {{[name: string]: (facts: Facts) => string[]}}
 */
const FINDERS = {
  "unlinked-contracts": findUnlinked,
  "premium-unit": findPremium,
  "claims-ratio": findClaims,
  "lapse-unit": findLapse,
  "cost-rate": findCostRate,
  "mortality-rise": findMortalityRise,
  "mortality-sexes": findMortalitySexes,
  "curve-zero": findCurve,
  "old-contracts": findOld,
  "one-sex": findOneSex,
  "sst-year": findYear,
};
