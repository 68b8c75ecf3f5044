// A page about two years' books: age classes, analysis of change, what changed. As
// python/xaropinto/compare_page.py.

import { AGE_ALIGNMENT, COMPARE_PAGE, PAGE, VERSION } from "../../target/web/tables.js";
import { expectedByClass } from "./age_alignment.js";
import * as answers from "./answers.js";
import { ratio } from "./book_changes.js";
import { lineChart, stepChart, unitOf } from "./charts.js";
import {
  captioned, charts, document, element, items, note, section, table, text,
} from "./html_parts.js";
import { CHAINS, SETTINGS } from "./layout.js";
import { counted, francs, percent, swiss } from "./number_format.js";
import { warningsSection } from "./page.js";
import { contractsByClass } from "./portfolio.js";
import { fixed, quotient } from "./python_text.js";
import { sha256 } from "./sha256.js";

const { COLOURS, CURVE_YEARS, MOST_CLASSES, MOST_IN_A_CHART, LAST, THIS } = COMPARE_PAGE;
const { Verdict } = AGE_ALIGNMENT;

/** @typedef {import("./age_alignment.js").ChainFinding} ChainFinding */
/** @typedef {import("./age_alignment.js").Signal} Signal */
/** @typedef {import("./book_changes.js").BookChanges} BookChanges */
/** @typedef {import("./book_changes.js").NumberChange} NumberChange */
/** @typedef {import("./change_analysis.js").ChangeAnalysis} ChangeAnalysis */
/** @typedef {import("./compare.js").Comparison} Comparison */
/** @typedef {import("./page.js").Imprint} Imprint */

/**
 * A book with the name that the page calls it by.
 * @typedef {{name: string, held: Uint8Array}} Book
 */

/**
 * The page of two accepted books.
 * @param {Book} last
 * @param {Book} current
 * @param {Comparison} comparison
 * @param {Imprint} imprint
 */
export function comparePage(last, current, comparison, imprint) {
  const title = `${current.name} compared with ${last.name}`;
  return document(title, [
    heading(title, comparison), identity(last, current, imprint),
    structureSection(last.held, current.held, comparison), analysisSection(comparison.analysis),
    chainsSection(last.held, current.held, comparison), changesSection(comparison.changes),
    warningsSection(comparison.notes), note(COMPARE_PAGE.PROVED),
  ]);
}

/**
 * What it is, and the verdict with the chains that differ from it.
 * @param {string} title
 * @param {Comparison} comparison
 */
export function heading(title, comparison) {
  const colour = COLOURS[comparison.alignment.overall.verdict] ?? "bad";
  return [element("h1", title),
    element("p", comparison.verdict(), { class: `verdict ${colour}` }),
    ...comparison.exceptions().map((line) => element("p", line, { class: "verdict bad" })),
  ].join("\n");
}

/**
 * Which books this is about.
 * @param {Book} last
 * @param {Book} current
 * @param {Imprint} imprint
 */
export function identity(last, current, imprint) {
  const rows = imprint.insurer ? [factRow("Insurer", element("td", imprint.insurer))] : [];
  for (const [name, book] of /** @type {[string, Book][]} */ ([[LAST, last], [THIS, current]])) {
    const values = answers.read(book.held);
    rows.push(factRow(name, `<td>${text(book.name)}, SST year ${values.year}, age basis 1, edition `
      + `${values.edition}, ${counted(book.held.length, "byte", "bytes")}<br/>`
      + `${digest(book.held)}</td>`));
  }
  const run = `${imprint.today}, xaropinto ${VERSION.VERSION}`;
  rows.push(factRow("Date of the run", element("td", run)));
  return ['<table class="facts">', element("caption", "The books, each with its SHA-256"),
    "<tbody>", ...rows, "</tbody></table>"].join("\n");
}

/**
 * A row with its name.
 * @param {string} name
 * @param {string} cell
 */
function factRow(name, cell) {
  return `<tr>${element("th", name, { scope: "row" })}${cell}</tr>`;
}

/**
 * A book's SHA-256.
 * @param {Uint8Array} book
 */
export function digest(book) {
  return element("span", sha256(book), { class: "hash" });
}

/**
 * Both age structures over each other; beside them this year's moved by a class.
 * @param {Uint8Array} last
 * @param {Uint8Array} current
 * @param {Comparison} comparison
 */
export function structureSection(last, current, comparison) {
  const { years, overall } = comparison.alignment;
  const expected = expectedByClass(last, years), counts = contractsByClass(answers.read(current));
  const isHigher = overall.verdict === Verdict.TOO_LOW;
  const moved = isHigher ? [0, ...counts.slice(0, -1)] : [...counts.slice(1), 0];
  const way = isHigher ? "higher" : "lower";
  const older = `last year's, ${counted(years, "class", "classes")} older`;
  const parts = [
    { title: "As the books have them", name: "this year's", values: counts },
    { title: `This year's moved one class ${way}`, name: `this year's, one ${way}`, values: moved },
  ].map(({ title, name, values }) =>
    classLines(title, [{ name: older, values: expected }, { name, values }]));
  return section("Contracts by age class", charts(parts), note(COMPARE_PAGE.STRUCTURE_NOTE));
}

/**
 * Two age structures over each other.
 * @param {string} title
 * @param {import("./charts.js").Series[]} series
 */
export function classLines(title, series) {
  if (!series.some((each) => each.values.some(Boolean))) {
    return captioned(title, element("p", "No contracts."));
  }
  return captioned(title, lineChart(title, "contracts", "age class", series));
}

/**
 * From last year's total to this year's: a chart of the base, and all figures in centimes.
 * @param {ChangeAnalysis} analysis
 */
export function analysisSection(analysis) {
  const names = ["last year", ...analysis.steps.map((step) => step.name), "this year"];
  const figures = [analysis.last, ...analysis.steps.map((step) => step.adds), analysis.this];
  const totals = figures.map((each) => each.totals);
  const chart = captioned("Base total", baseChart(names, totals.map((row) => row[0])));
  const parts = [charts(analysis.remarks.length ? [chart, items(analysis.remarks)] : [chart])];
  for (const first of [0, 4]) {
    const until = first + 4;
    parts.push(stepTable(`Totals of settings ${first} to ${first + 3}, in centimes`, names,
      SETTINGS.slice(first, until), totals.map((row) => row.slice(first, until))));
  }
  const pairs = PAGE.DIFFERENCES.map(([one, other]) => `${SETTINGS[one]} less ${SETTINGS[other]}`);
  parts.push(stepTable("Differences between settings, in centimes", names, pairs,
    figures.map((each) => each.differences)));
  return ["<h2>Analysis of change</h2>", ...parts].join("\n");
}

/**
 * The steps of the base.
 * @param {string[]} names
 * @param {bigint[]} amounts
 */
function baseChart(names, amounts) {
  const highest = amounts.map((each) => (each < 0n ? -each : each))
    .reduce((most, each) => (each > most ? each : most));
  const [divisor, unit] = unitOf(highest, MOST_IN_A_CHART);
  return stepChart("Base total, from last year to this", unit, names.map((name, at) =>
    [name, quotient(amounts[at], divisor), at === 0 || at === names.length - 1]));
}

/**
 * Last year's figures, what each step adds, and this year's.
 * @param {string} caption
 * @param {string[]} names
 * @param {string[]} headings
 * @param {bigint[][]} rows
 */
export function stepTable(caption, names, headings, rows) {
  const cells = names.map((name, at) => [name, ...rows[at].map((each) => swiss(each))]);
  return `<section>${table(caption, ["step", ...headings], cells, "stack")}</section>`;
}

/**
 * Every chain with its contracts in both years and its verdict.
 * @param {Uint8Array} last
 * @param {Uint8Array} current
 * @param {Comparison} comparison
 */
export function chainsSection(last, current, comparison) {
  const found = new Map(comparison.alignment.chains.map((each) => [each.chain, each]));
  const [before, now] = [last, current].map((book) =>
    answers.read(book).chains.map((chain) => chain.counts));
  const rows = [];
  for (const [at, name] of CHAINS.entries()) {
    if (before[at].length || now[at].length) {
      const sums = [before[at], now[at]].map((counts) =>
        swiss(counts.reduce((sum, count) => sum + count, 0)));
      rows.push([name, ...sums, ...signalCells(found.get(name))]);
    }
  }
  return section("Age classes, chain by chain",
    table("The likeliest shift of each signal, and its lead in standard errors",
      ["chain", "last year", "this year", "counts", "curves", "verdict"], rows, "stack"),
    note(COMPARE_PAGE.SIGNALS_NOTE));
}

/**
 * A chain's two signals and its verdict.
 * @param {ChainFinding | undefined} found
 */
export function signalCells(found) {
  if (found === undefined) return ["", "", "in one book alone"];
  const { counts, curves, verdict } = found.finding;
  return [signalWords(counts), signalWords(curves), verdict];
}

/**
 * A shift with its lead; nothing where there is no signal.
 * @param {Signal} signal
 */
export function signalWords(signal) {
  const shift = signal.shift > 0 ? `+${signal.shift}` : String(signal.shift);
  return signal.errors ? `${shift} (${fixed(signal.errors, 1)})` : "";
}

/**
 * What changed between the books.
 * @param {BookChanges} changes
 */
export function changesSection(changes) {
  const lines = [`Chains that vanished: ${changes.vanished.join(", ") || "none"}`,
    `Chains that appeared: ${changes.appeared.join(", ") || "none"}`];
  for (const { name, unlinked } of [{ name: LAST, unlinked: changes.unlinkedLast },
    { name: THIS, unlinked: changes.unlinkedThis }]) {
    const records = counted(unlinked.records, "record", "records");
    const contracts = counted(unlinked.contracts, "contract", "contracts");
    lines.push(`In no chain of ${name}: ${records} with ${contracts}`);
  }
  lines.push(...changes.percentages.filter((each) => each.last !== each.this).map((each) =>
    `Mortality percentage of ${each.name}: ${each.last}, now ${each.this}`));
  return [section("What changed", items(lines), groupTable(changes)), curveSection(changes.curve),
    mortalitySection(changes.mortality)].join("\n");
}

/**
 * Contracts, means and cost rates of both years, with their ratios.
 * @param {BookChanges} changes
 */
export function groupTable(changes) {
  /** @type {string[][]} */
  const rows = [];
  changes.groups.forEach(({ last, this: now }, at) => {
    if (!last.contracts && !now.contracts) return;
    const name = last.group, rate = changes.costRates[at];
    rows.push([`${name} contracts`, swiss(last.contracts), swiss(now.contracts),
      times(ratio(now.contracts, last.contracts))],
    compared(`${name} premium, francs`, last.premium, now.premium, francs),
    compared(`${name} claims, francs`, last.claims, now.claims, francs),
    compared(`${name} lapse, percent`, last.lapse, now.lapse, percent),
    compared(`${name} cost rate, percent`, rate.last, rate.this, percent));
  });
  return table("Product groups: means over the contracts, for a contract and a year",
    ["", "last year", "this year", "ratio"], rows);
}

/**
 * A row of a number in both years.
 * @param {string} name
 * @param {number | null} last
 * @param {number | null} current
 * @param {(number: number) => string} way
 */
export function compared(name, last, current, way) {
  return [name, last === null ? "" : way(last), current === null ? "" : way(current),
    times(ratio(current, last))];
}

/**
 * A ratio; nothing where there is none.
 * @param {number | null} over
 */
export function times(over) {
  return over === null ? "" : fixed(over, 3);
}

/**
 * Both curves over each other, and how many rates changed.
 * @param {NumberChange[]} curve
 */
export function curveSection(curve) {
  const changed = curve.filter((each) => each.last !== each.this);
  if (!changed.length) return section("Curve", element("p", "No rate changed."));
  const largest = changed.reduce((most, each) =>
    (Math.abs(each.this - each.last) > Math.abs(most.this - most.last) ? each : most));
  const words = `${counted(changed.length, "rate", "rates")} of ${curve.length} changed, most that `
    + `of year ${largest.name}: ${percent(largest.last)} percent, now ${percent(largest.this)}.`;
  const rows = curve.filter((each) => CURVE_YEARS.includes(Number(each.name)))
    .map((each) => [`year ${each.name}`, percent(each.last), percent(each.this)]);
  return section("Curve", element("p", words),
    table("Rates in percent", ["", "last year", "this year"], rows));
}

/**
 * The classes whose mortality moved by more than a tenth.
 * @param {NumberChange[]} moved
 */
export function mortalitySection(moved) {
  if (!moved.length) {
    return section("Mortality", element("p", "No class moved by more than a tenth."));
  }
  const rows = moved.slice(0, MOST_CLASSES).map((each) =>
    [each.name, swiss(each.last), swiss(each.this)]);
  const rest = moved.length - rows.length;
  const more = rest ? [note(`and ${counted(rest, "class", "classes")} more`)] : [];
  return section("Mortality",
    table("In millionths, where it moved by more than a tenth",
      ["sex and class", "last year", "this year"], rows), ...more);
}
