// Analysis of change: from last year's totals to this year's, step by step, in centimes.
//
// A step takes over one part of this year's book and keeps what the steps before it took. Its book
// is written by the proved Write and valued by the proved Totals, so the steps add up exactly. A
// chain or class that one book alone has stays as it is until the last step, contracts. As
// python/xaropinto/change_analysis.py.

import { CHANGE_ANALYSIS } from "../../target/web/tables.js";
import * as answers from "./answers.js";
import { CHAINS, LAST_CLASS } from "./layout.js";

const { CONTRACTS } = CHANGE_ANALYSIS;

/** @typedef {import("./book_values.js").BookValues} BookValues */
/** @typedef {import("./book_values.js").Chain} Chain */

/**
 * Eight totals and four differences: of a book, or what a step adds to them.
 * @typedef {{totals: bigint[], differences: bigint[]}} Figures
 */

/**
 * A part of the book that changed, and what it adds.
 * @typedef {{name: string, adds: Figures}} Step
 */

/**
 * Last year's figures, the steps in their order, and this year's figures.
 * @typedef {{last: Figures, steps: Step[], this: Figures, remarks: string[]}} ChangeAnalysis
 */

/**
 * The analysis of two accepted books.
 * @param {Uint8Array} last
 * @param {Uint8Array} current
 * @returns {ChangeAnalysis}
 */
export function analyseChange(last, current) {
  const old = answers.read(last), now = answers.read(current);
  const first = figuresOf(last), end = figuresOf(current);
  const remarks = [...oneSided(old, now)];
  /** @type {Step[]} */
  const steps = [];
  /** @type {string[]} */
  let names = [];
  let before = first;
  for (const [name, values] of stepsBetween(old, now)) {
    names.push(name);
    const after = figuresOrRefusal(values);
    if (after instanceof answers.RefusedError) {
      remarks.push(`The book of the step '${name}' cannot be written (${after.words}): `
        + "it is joined with the next step.");
      continue;
    }
    steps.push({ name: names.join(" and "), adds: less(after, before) });
    [names, before] = [[], after];
  }
  steps.push({ name: [...names, CONTRACTS].join(" and "), adds: less(end, before) });
  return { last: first, steps, this: end, remarks };
}

/**
 * What Totals says.
 * @param {Uint8Array} book
 * @returns {Figures}
 */
export function figuresOf(book) {
  const { totals, differences } = answers.totals(book);
  return { totals, differences };
}

/**
 * What Totals says of the book of values, or the refusal where there is no such book.
 * @param {BookValues} values
 */
function figuresOrRefusal(values) {
  try {
    return figuresOf(answers.write(values));
  } catch (error) {
    if (error instanceof answers.RefusedError) return error;
    throw error;
  }
}

/**
 * What is between two books.
 * @param {Figures} one
 * @param {Figures} other
 * @returns {Figures}
 */
export function less(one, other) {
  return {
    totals: subtracted(one.totals, other.totals),
    differences: subtracted(one.differences, other.differences),
  };
}

/**
 * Number by number.
 * @param {bigint[]} one
 * @param {bigint[]} other
 */
export function subtracted(one, other) {
  return one.map((each, at) => each - other[at]);
}

/**
 * Each step but the last, with the values of its book.
 * @param {BookValues} old
 * @param {BookValues} now
 * @returns {Generator<[string, BookValues]>}
 */
export function* stepsBetween(old, now) {
  let values = { ...old, curve: now.curve };
  yield ["curve", values];
  const { edition, percentages, mortality } = now;
  values = { ...values, edition, percentages, mortality };
  yield ["mortality", values];
  values = { ...values, costRates: now.costRates };
  yield ["cost rates", values];
  let chains = values.chains.map((each, at) => withLapses(each, now.chains[at]));
  values = { ...values, chains };
  yield ["lapse", values];
  chains = chains.map((each, at) => withAmounts(each, now.chains[at]));
  values = { ...values, chains };
  yield ["premiums and claims", values];
}

/**
 * A chain with this year's lapse, where both books have the class.
 * @param {Chain} old
 * @param {Chain} now
 */
export function withLapses(old, now) {
  return { ...old, lapses: takenOver(old.lapses, now.lapses) };
}

/**
 * A chain with this year's premiums and claims, where both books have the class.
 * @param {Chain} old
 * @param {Chain} now
 */
export function withAmounts(old, now) {
  return {
    ...old,
    premiums: takenOver(old.premiums, now.premiums), claims: takenOver(old.claims, now.claims),
  };
}

/**
 * The new numbers for the classes that both lists have: each ends at class 120.
 * @param {number[]} old
 * @param {number[]} now
 */
export function takenOver(old, now) {
  const common = Math.min(old.length, now.length);
  return [...old.slice(0, old.length - common), ...now.slice(now.length - common)];
}

/**
 * Chains and classes that one book alone has.
 * @param {BookValues} old
 * @param {BookValues} now
 * @returns {Generator<string>}
 */
export function* oneSided(old, now) {
  for (const [at, name] of CHAINS.entries()) {
    const before = old.chains[at].firstClass, after = now.chains[at].firstClass;
    if (before === after) continue;
    const book = before < after ? "last year's" : "this year's";
    const first = Math.min(before, after), until = Math.max(before, after);
    let what = until - 1 > first ? `classes ${first} to ${until - 1} are` : `class ${first} is`;
    if (until > LAST_CLASS) what = "the chain is";
    yield `${name}: ${what} in ${book} book alone, part of the step '${CONTRACTS}'.`;
  }
}
