// One page about a book that stands alone: verdict, warnings, totals, product groups, charts. As
// python/xaropinto/page.py.

import { PAGE, VERSION } from "../../target/web/tables.js";
import * as answers from "./answers.js";
import { barChart, lineChart, unitOf } from "./charts.js";
import { totalDistance } from "./distances.js";
import {
  captioned, charts, document, element, facts, items, note, section, table,
} from "./html_parts.js";
import { GROUPS, SETTINGS, SEXES } from "./layout.js";
import { counted, francs, millionFrancs, percent, swiss } from "./number_format.js";
import { groupMeans, notesOf } from "./plausibility.js";
import { contractsByClass } from "./portfolio.js";
import { quotient } from "./python_text.js";
import { sha256 } from "./sha256.js";

/** @typedef {import("./book_values.js").BookValues} BookValues */
/** @typedef {import("./plausibility.js").Note} Note */

/**
 * What a page says of its making: the day, as 2026-11-17, and whose book it is.
 * @typedef {{today: string, insurer?: string}} Imprint
 */

/**
 * The page of an accepted book; `RefusedError` where it is refused.
 * @param {string} name
 * @param {Uint8Array} book
 * @param {Imprint} imprint
 */
export function pageOf(name, book, imprint) {
  const totals = answers.totals(book), values = answers.read(book);
  return document(name, [
    heading(name, totals.n), identity(name, book, values, imprint),
    warningsSection(notesOf(book, imprint.today)), totalsSection(totals, values),
    differencesSection(totals), groupsSection(values), chartsSection(book, values),
    note(PAGE.PROVED),
  ]);
}

/**
 * What it is, and the verdict.
 * @param {string} name
 * @param {number} n
 */
export function heading(name, n) {
  const holding = counted(n, "linked record holds", "linked records hold");
  return [element("h1", name), element("p", `accepted ${n}`, { class: "verdict good" }),
    element("p", `${holding} contracts.`)].join("\n");
}

/**
 * Which book this is about, and which run.
 * @param {string} name
 * @param {Uint8Array} book
 * @param {BookValues} values
 * @param {Imprint} imprint
 */
export function identity(name, book, values, imprint) {
  let edition = String(values.edition);
  if (values.edition === 2) {
    edition += `, mortality percentages ${values.percentages[0]} and ${values.percentages[1]}`;
  }
  /** @type {[string, string][]} */
  const rows = imprint.insurer ? [["Insurer", imprint.insurer]] : [];
  rows.push(["File", name], ["SST year", String(values.year)], ["Age basis", "1"],
    ["Edition", edition], ["Length", counted(book.length, "byte", "bytes")],
    ["SHA-256", sha256(book)], ["Date of the run", imprint.today],
    ["Program", `xaropinto ${VERSION.VERSION}`]);
  return facts("The book", rows);
}

/**
 * What is unusual about the book.
 * @param {Note[]} notes
 */
export function warningsSection(notes) {
  if (!notes.length) return section("Warnings", element("p", "None."));
  return section("Warnings", items(notes.map((each) => `${each.text} (${each.name})`)),
    note(PAGE.WARNING_NOTE));
}

/**
 * The eight totals with their distance.
 * @param {import("./answers.js").Totals} totals
 * @param {BookValues} values
 */
export function totalsSection(totals, values) {
  const distance = swiss(totalDistance(totals.n, Math.min(...values.curve) >= 0));
  const rows = totals.totals.map((total, setting) =>
    [`${setting} ${SETTINGS[setting]}`, swiss(total), millionFrancs(total)]);
  return section("Totals",
    table(`Total by setting, each within ± ${distance} centimes of its exact value`,
      ["setting", ...PAGE.AMOUNTS], rows),
    note(PAGE.TOTALS_NOTE));
}

/**
 * The four differences.
 * @param {import("./answers.js").Totals} totals
 */
export function differencesSection(totals) {
  const rows = PAGE.DIFFERENCES.map(([one, other], at) => {
    const each = totals.differences[at];
    return [`${SETTINGS[one]} less ${SETTINGS[other]}`, swiss(each), millionFrancs(each)];
  });
  return section("Differences", table("Between two settings", ["settings", ...PAGE.AMOUNTS], rows));
}

/**
 * What a contract of each group pays and costs: a wrong unit is seen here.
 * @param {BookValues} values
 */
export function groupsSection(values) {
  const rows = groupMeans(values).map((each, at) => {
    let means = ["", "", ""];
    if (each.premium !== null && each.claims !== null && each.lapse !== null) {
      means = [francs(each.premium), francs(each.claims), percent(each.lapse)];
    }
    return [each.group, swiss(each.contracts), ...means, percent(values.costRates[at])];
  });
  const headings = ["group", "contracts", "premium, francs", "claims, francs", "lapse, percent",
    "cost rate, percent"];
  return section("Product groups",
    table("Means over the contracts, for a contract and a year", headings, rows, "stack"));
}

/**
 * The years of each product group in the base, and the contracts by class.
 * @param {Uint8Array} book
 * @param {BookValues} values
 */
export function chartsSection(book, values) {
  const parts = GROUPS.map((name, at) => yearChart(name, answers.group(book, 0, at + 1)));
  return ["<h2>Years of the product groups in the base, and age classes</h2>",
    charts([...parts, classChart(values)])].join("\n");
}

/**
 * Premium after the cap and outgo of a product group, by year.
 * @param {string} name
 * @param {import("./answers.js").Group} group
 */
export function yearChart(name, group) {
  const [premium, outgo] = [0, 1].map((at) => group.years.map((year) => year[at]));
  const highest = [...premium, ...outgo].reduce((most, each) => (each > most ? each : most));
  if (!highest) return captioned(name, element("p", "No premium and no outgo in any year."));
  const [divisor, unit] = unitOf(highest);
  const [premiums, outgoes] = [premium, outgo].map((amounts) =>
    amounts.map((amount) => quotient(amount, divisor)));
  const series = [{ name: "premium after cap", values: premiums },
    { name: "outgo", values: outgoes }];
  return captioned(`${name}: liability ${millionFrancs(group.liability)} million francs`,
    lineChart(`${name}: premium after the cap and outgo by year`, unit, "year", series));
}

/**
 * Contracts by class and sex.
 * @param {BookValues} values
 */
export function classChart(values) {
  const series = SEXES.map((name) => ({ name, values: contractsByClass(values, "", name) }));
  if (!series.some((each) => each.values.some(Boolean))) {
    return captioned("Contracts by age class", element("p", "No contracts."));
  }
  const words = series.map((each) =>
    `${swiss(each.values.reduce((sum, count) => sum + count, 0))} ${each.name}`).join(", ");
  return captioned(`Contracts by age class: ${words}`,
    barChart("Contracts by age class and sex", "contracts", "age class", series));
}
