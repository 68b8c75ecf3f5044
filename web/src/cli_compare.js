// What the command prints of two years' books. As python/xaropinto/cli/compare.py.

import { CLI_COMPARE } from "../../target/web/tables.js";
import * as answers from "./answers.js";
import { compare } from "./compare.js";
import { comparePage } from "./compare_page.js";
import { SETTINGS } from "./layout.js";
import { fixed } from "./python_text.js";

const { DIFFERENCES } = CLI_COMPARE;

/** @typedef {import("./compare.js").Comparison} Comparison */
/** @typedef {import("./compare_page.js").Book} Book */

/**
 * The comparison as text, and its page; `RefusedError` where a book is refused, `YearsError` where
 * the years do not fit.
 * @param {Book} last
 * @param {Book} current
 * @param {import("./page.js").Imprint} imprint
 * @returns {{text: string, page: string, comparison: Comparison}}
 */
export function shownComparison(last, current, imprint) {
  for (const book of [last, current]) answers.check(book.held);
  const comparison = compare(last.held, current.held, imprint.today);
  return {
    text: [...comparisonLines(comparison), ""].join("\n"),
    page: comparePage(last, current, comparison, imprint), comparison,
  };
}

/**
 * The verdict first, then the analysis of change, what changed, and chain by chain.
 * @param {Comparison} comparison
 */
export function comparisonLines(comparison) {
  return [comparison.verdict(), ...comparison.exceptions(), "", ...analysisLines(comparison), "",
    ...changeLines(comparison), "", ...chainLines(comparison)];
}

/**
 * Comma-separated: last year's figures, what each step adds, this year's figures.
 * @param {Comparison} comparison
 */
export function analysisLines(comparison) {
  const { last, steps, this: end, remarks } = comparison.analysis;
  const rows = [{ name: `SST year ${comparison.lastYear}`, adds: last }, ...steps,
    { name: `SST year ${comparison.thisYear}`, adds: end }];
  const heading = ["step", ...SETTINGS, ...DIFFERENCES.map((name) => `difference of ${name}`)];
  return ["Analysis of change, in centimes", heading.join(","),
    ...rows.map(({ name, adds }) => [name, ...adds.totals, ...adds.differences].join(",")),
    ...remarks];
}

/**
 * What changed between the books.
 * @param {Comparison} comparison
 */
export function changeLines(comparison) {
  const { changes } = comparison;
  const lines = ["What changed", `chains that vanished: ${listed(changes.vanished)}`,
    `chains that appeared: ${listed(changes.appeared)}`];
  for (const { name, held } of [{ name: "last", held: changes.unlinkedLast },
    { name: "this", held: changes.unlinkedThis }]) {
    lines.push(`in no chain of ${name} year's book: records ${held.records}, `
      + `contracts ${held.contracts}`);
  }
  lines.push("group,what,last,this,ratio");
  for (const each of changes.groups) {
    const { group, contracts, premium, claims, lapse } = each.last;
    lines.push(`${group},contracts,${contracts},${each.this.contracts},`);
    for (const { what, numbers } of [
      { what: "premium_centimes", numbers: [premium, each.this.premium, each.premiumRatio] },
      { what: "claims_centimes", numbers: [claims, each.this.claims, each.claimsRatio] },
      { what: "lapse_millionths", numbers: [lapse, each.this.lapse, each.lapseRatio] }]) {
      lines.push([group, what, ...numbers.map(rounded)].join(","));
    }
  }
  for (const { what, numbers } of [{ what: "cost_rate_millionths", numbers: changes.costRates },
    { what: "mortality_percentage", numbers: changes.percentages },
    { what: "mortality_millionths", numbers: changes.mortality },
    { what: "curve_millionths", numbers: changes.curve }]) {
    lines.push(...numbers.map((each) => `${each.name},${what},${each.last},${each.this},`));
  }
  return lines;
}

/**
 * Comma-separated: the verdict of every chain that both books have.
 * @param {Comparison} comparison
 */
export function chainLines(comparison) {
  return ["Age classes, chain by chain",
    "chain,verdict,counts_shift,counts_errors,curves_shift,curves_errors",
    ...comparison.alignment.chains.map(({ chain, finding: { verdict, counts, curves } }) =>
      [chain, verdict, counts.shift, fixed(counts.errors, 1), curves.shift,
        fixed(curves.errors, 1)].join(","))];
}

/**
 * Names, or that there are none.
 * @param {string[]} names
 */
export function listed(names) {
  return names.join(", ") || "none";
}

/**
 * A mean or a ratio with four decimals, nothing where there is none.
 * @param {number | null} number
 */
export function rounded(number) {
  return number === null ? "" : fixed(number, 4);
}
