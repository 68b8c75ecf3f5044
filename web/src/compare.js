// Two years' books of one insurer: do the classes follow, what moved the totals, what changed. As
// python/xaropinto/compare.py.

import { AGE_ALIGNMENT, COMPARE } from "../../target/web/tables.js";
import { align } from "./age_alignment.js";
import * as answers from "./answers.js";
import { changesBetween } from "./book_changes.js";
import { analyseChange } from "./change_analysis.js";
import { YEARS } from "./layout.js";
import { notesOf } from "./plausibility.js";

const { LINES } = COMPARE;

/** The second book is of an earlier SST year than the first, or of one that is too late. */
export class YearsError extends Error {
  name = "YearsError";
}

/** All that is said of two books; the notes are the warnings about this year's. */
export class Comparison {
  /**
   * @param {{lastYear: number, thisYear: number, alignment: import("./age_alignment.js").Alignment,
   *   analysis: import("./change_analysis.js").ChangeAnalysis, changes:
   *   import("./book_changes.js").BookChanges, notes: import("./plausibility.js").Note[]}} said
   */
  constructor(said) {
    this.lastYear = said.lastYear;
    this.thisYear = said.thisYear;
    this.alignment = said.alignment;
    this.analysis = said.analysis;
    this.changes = said.changes;
    this.notes = said.notes;
  }

  /** The verdict over all chains in one line. */
  verdict() {
    return `Age classes: ${LINES[this.alignment.overall.verdict]}`;
  }

  /** A line for each chain of which something else is said than over all. */
  exceptions() {
    return this.alignment.differing().map((each) =>
      `Age classes of ${each.chain}: ${each.finding.verdict}`);
  }

  /** Whether the classes follow, no chain slipped and nothing is warned of. */
  isClean() {
    return this.alignment.overall.verdict === AGE_ALIGNMENT.Verdict.AS_EXPECTED
      && !this.alignment.differing().length && !this.notes.length;
  }
}

/**
 * The comparison of two accepted books; `RefusedError` where one is not. The day is as 2026-11-17.
 * @param {Uint8Array} last
 * @param {Uint8Array} current
 * @param {string} today
 */
export function compare(last, current, today) {
  const [lastYear, thisYear] = [last, current].map((book) => answers.read(book).year);
  if (thisYear < lastYear) {
    throw new YearsError(`the first book is of SST year ${lastYear}, the second of ${thisYear}: `
      + "last year's book comes first");
  }
  if (thisYear - lastYear >= YEARS) {
    throw new YearsError(`the books are of SST years ${lastYear} and ${thisYear}: no contract of `
      + `the first is projected over more than ${YEARS - 1} years`);
  }
  return new Comparison({
    lastYear, thisYear, alignment: align(last, current), analysis: analyseChange(last, current),
    changes: changesBetween(last, current), notes: notesOf(current, today),
  });
}
