// Do this year's age classes follow last year's?
//
// A contract of class c last year is of class c + d this year, d being the difference of the SST
// years; of c + d + 1 where this year's classes were counted one too high. Two signals distinguish
// the shifts -1, 0 and +1:
//
// - counts: contracts are people, so the ups and downs of the counts from class to class grow older
//   with them. Last year's are those that the proved call leaves in force after d years.
// - curves: premium, claims and lapse belong to a class, so their ups and downs stay where they
//   are.
//
// Level and slope drop out, and with them inflation, new business over many classes and a wrong
// lapse. The rule is statistics, tested on seeded pairs of books and not proved.
//
// As python/xaropinto/age_alignment.py, sums being added up in the same order: in another one their
// last digits differ.

import { AGE_ALIGNMENT } from "../../target/web/tables.js";
import * as answers from "./answers.js";
import { CHAINS, LAST_CLASS, YEARS } from "./layout.js";
import { log } from "./logarithm.js";
import { fixed } from "./python_text.js";

const { SHIFTS, REACH, SURE, DOUBT, ALIKE, FEW, TAIL, COUNT_FLOOR, CURVE_FLOOR } = AGE_ALIGNMENT;
const { BILLIONTHS, DEVIATION_DECIMALS, LEAD_DECIMALS, Verdict, OF_SHIFT } = AGE_ALIGNMENT;
// The most people whose chance is computed in whole numbers.
const FEW_PEOPLE = 100;

/** @typedef {import("./book_values.js").BookValues} BookValues */
/** @typedef {import("./book_values.js").Chain} Chain */
/** @typedef {Map<number, number>} Deviations */
/** @typedef {Map<number, number[]>} Evidence */

/**
 * Evidence of one kind of number.
 * @typedef {[string, Evidence]} Piece
 */

/**
 * The likeliest shift, and by how many standard errors it leads the next.
 * @typedef {{shift: number, errors: number}} Signal
 */

/**
 * A verdict and the two signals behind it.
 * @typedef {{verdict: string, counts: Signal, curves: Signal}} Finding
 */

/**
 * The finding of a chain that both books have.
 * @typedef {{chain: string, finding: Finding}} ChainFinding
 */

/** The finding over all chains, and those of the chains; `years` is d. */
export class Alignment {
  /**
   * @param {number} years
   * @param {Finding} overall
   * @param {ChainFinding[]} chains
   */
  constructor(years, overall, chains) {
    this.years = years;
    this.overall = overall;
    this.chains = chains;
  }

  /** Chains of which something else is said than over all. */
  differing() {
    return this.chains.filter((each) =>
      ![Verdict.CANNOT_TELL, this.overall.verdict].includes(each.finding.verdict));
  }
}

/**
 * The sum from the first to the last.
 * @param {number[]} numbers
 */
function sum(numbers) {
  let held = 0;
  for (const each of numbers) held += each;
  return held;
}

/**
 * The findings for two accepted books; the first is of the same SST year or an earlier one.
 * @param {Uint8Array} last
 * @param {Uint8Array} current
 */
export function align(last, current) {
  const old = answers.read(last), now = answers.read(current);
  const years = now.year - old.year;
  const both = [...CHAINS.keys()].filter((number) =>
    old.chains[number].counts.length && now.chains[number].counts.length);
  const tells = years >= 0 && years < YEARS && !spreadEvenly(old) && !spreadEvenly(now);
  const counts = both.map((number) => (tells
    ? [countPiece(last, number, [old.chains[number], now.chains[number]], years)] : []));
  // Few counts that stayed at their class may be spread evenly, unseen.
  const few = sum(old.chains.map((chain) => sum(chain.counts))) < FEW;
  const barred = few && years === 1 ? -1 : null;
  const overall = judge(counts.flat(), barred);
  const curves = both.map((number) =>
    curvePieces(old.chains[number], now.chains[number], overall, years));
  const findings = both.map((number, at) => ({
    chain: CHAINS[number], finding: decide(judge(counts[at], barred), judge(curves[at])),
  }));
  return new Alignment(years, decide(overall, judge(curves.flat())), findings);
}

/**
 * The evidence of a chain's counts.
 * @param {Uint8Array} last
 * @param {number} number
 * @param {[Chain, Chain]} pair
 * @param {number} years
 * @returns {Piece}
 */
export function countPiece(last, number, pair, years) {
  const [before, now] = pair;
  const expected = before.counts.map((_, at) => expectedCount(last, number, before, at, years));
  const evidence = evidenceOf(countDeviations(expected, before.firstClass),
    countDeviations(now.counts, now.firstClass), years, COUNT_FLOOR);
  return ["counts", evidence];
}

/**
 * What the proved call leaves in force of a cell after so many years, in the base.
 * @param {Uint8Array} last
 * @param {number} number
 * @param {Chain} chain
 * @param {number} at
 * @param {number} years
 */
export function expectedCount(last, number, chain, at, years) {
  if (!chain.counts[at]) return 0;
  const cell = answers.cell(last, 0, Math.floor(number / 2) + 1, number % 2, chain.firstClass + at);
  // A cell has at most 10^14 billionths, which are exact.
  return Number(cell.inForce[years]) / BILLIONTHS;
}

/**
 * What is left of last year's contracts after so many years, by the class they then have.
 * @param {Uint8Array} last
 * @param {number} years
 */
export function expectedByClass(last, years) {
  const byClass = new Array(LAST_CLASS + 1).fill(0);
  answers.read(last).chains.forEach((chain, number) => chain.counts.forEach((_, at) => {
    const expected = expectedCount(last, number, chain, at, years);
    byClass[Math.min(LAST_CLASS, chain.firstClass + at + years)] += expected;
  }));
  return byClass;
}

/**
 * The evidence of a chain's lapse, premium and claims.
 * @param {Chain} before
 * @param {Chain} now
 * @param {Signal} overall
 * @param {number} years
 */
export function curvePieces(before, now, overall, years) {
  /** @type {Piece[]} */
  const pieces = [];
  for (const kind of /** @type {const} */ (["lapses", "premiums", "claims"])) {
    const evidence = evidenceOf(curveDeviations(before[kind], before.firstClass),
      curveDeviations(now[kind], now.firstClass), 0, CURVE_FLOOR);
    // A premium by age at entry grows older with its people and says nothing of the classes.
    const moved = judge([[kind, evidence]]).shift;
    const byEntry = overall.errors < DOUBT || moved === overall.shift + years;
    if (kind !== "premiums" || !byEntry) pieces.push([kind, evidence]);
  }
  return pieces;
}

/**
 * By class: how far a count is from the mean of its neighbours, in Poisson deviations.
 * @param {number[]} counts
 * @param {number} first
 * @returns {Deviations}
 */
export function countDeviations(counts, first) {
  const found = new Map();
  for (const at of inner(counts.length)) {
    const window = counts.slice(at - REACH, at + REACH + 1);
    const scale = Math.sqrt(sum(window) / window.length + 0.5);
    found.set(first + at, fromNeighbours(window) / scale);
  }
  return found;
}

/**
 * By class: how far the logarithm of an amount is from the mean of its neighbours'.
 * @param {number[]} amounts
 * @param {number} first
 * @returns {Deviations}
 */
export function curveDeviations(amounts, first) {
  const found = new Map(), logarithms = amounts.map((amount) => (amount > 0 ? log(amount) : 0));
  for (const at of inner(amounts.length)) {
    const ends = [at - REACH, at + REACH + 1];
    if (Math.min(...amounts.slice(...ends)) > 0) {
      const deviation = fromNeighbours(logarithms.slice(...ends));
      found.set(first + at, Number(fixed(deviation, DEVIATION_DECIMALS)));
    }
  }
  return found;
}

/**
 * The places whose windows are whole and leave out the last class, which gathers the oldest.
 * @param {number} length
 */
export function inner(length) {
  const places = [];
  for (let at = REACH; at < length - 1 - REACH; at++) places.push(at);
  return places;
}

/**
 * The middle less the mean of the others.
 * @param {number[]} window
 */
export function fromNeighbours(window) {
  return window[REACH] - (sum(window) - window[REACH]) / (2 * REACH);
}

/**
 * By class of this year: the log likelihood that last year's moved by a step and each shift.
 * @param {Deviations} before
 * @param {Deviations} now
 * @param {number} step
 * @param {number} floor
 * @returns {Evidence}
 */
export function evidenceOf(before, now, step, floor) {
  const classes = [...now.keys()].filter((at) =>
    SHIFTS.every((shift) => before.has(at - step - shift)));
  if (classes.length < 2 * REACH + 1) return new Map();
  const residuals = SHIFTS.map((shift) => residualsOf(classes.map((at) =>
    [Number(before.get(at - step - shift)), Number(now.get(at))])));
  const scales = residuals.map((each) => 1.48 * median(each.map(Math.abs)));
  const scale = Math.max(floor, Math.min(...scales));
  const likelihoods = residuals.map((row) => row.map((each) => logLikelihood(each / scale)));
  return new Map(classes.map((at, place) => [at, likelihoods.map((row) => row[place])]));
}

/**
 * The middle one of numbers in their order, or the mean of the middle two.
 * @param {number[]} numbers
 */
function median(numbers) {
  const held = Float64Array.from(numbers).sort(), middle = held.length >> 1;
  return held.length % 2 ? held[middle] : (held[middle - 1] + held[middle]) / 2;
}

/**
 * What is left of the second numbers after a fit to the first through 0, of slope 0 to 1.5.
 * @param {number[][]} pairs
 */
export function residualsOf(pairs) {
  const weight = sum(pairs.map(([x]) => x * x));
  const slope = weight
    ? Math.min(Math.max(sum(pairs.map(([x, y]) => x * y)) / weight, 0), 1.5) : 0;
  return pairs.map(([x, y]) => y - slope * x);
}

/**
 * Of Student's distribution, but for a constant.
 * @param {number} residual
 */
export function logLikelihood(residual) {
  return (-(TAIL + 1) / 2) * log(1 + (residual * residual) / TAIL);
}

/**
 * The signal of pieces of evidence; chains are added up, so that a class counts once.
 * @param {Piece[]} pieces
 * @param {number | null} barred
 * @returns {Signal}
 */
export function judge(pieces, barred = null) {
  /** @type {Map<string, number[]>} */
  const byClass = new Map();
  for (const [kind, evidence] of pieces) {
    for (const [at, likelihoods] of evidence) {
      const row = byClass.get(`${kind} ${at}`) ?? SHIFTS.map(() => 0);
      byClass.set(`${kind} ${at}`, row.map((each, place) => each + likelihoods[place]));
    }
  }
  const rows = [...byClass.values()];
  const sums = SHIFTS.map((_, place) => sum(rows.map((row) => row[place])));
  const best = sums.indexOf(Math.max(...sums));
  const others = [...SHIFTS.keys()].filter((other) => other !== best);
  const errors = Math.min(
    ...others.map((other) => lead(rows.map((row) => row[best] - row[other]))));
  if (!errors || SHIFTS[best] === barred) return { shift: 0, errors: 0 };
  return { shift: SHIFTS[best], errors };
}

/**
 * A sum in its standard errors.
 * @param {number[]} differences
 */
export function lead(differences) {
  const errors = sum(differences)
    / (Math.sqrt(sum(differences.map((each) => each * each))) || 1);
  return Number(fixed(errors, LEAD_DECIMALS));
}

/**
 * Whether neighbouring counts are more alike than chance allows: spread, not counted.
 * @param {BookValues} values
 */
export function spreadEvenly(values) {
  let surplus = 0, variance = 0;
  for (const { counts } of values.chains) {
    for (let at = 1; at < counts.length; at++) {
      const chance = chanceOfAlike(counts[at - 1] + counts[at]);
      surplus += (Math.abs(counts[at - 1] - counts[at]) <= 1 ? 1 : 0) - chance;
      variance += chance * (1 - chance);
    }
  }
  return surplus > ALIKE * Math.sqrt(variance);
}

/**
 * That so many people fall into two classes with a difference of at most 1.
 * @param {number} people
 */
export function chanceOfAlike(people) {
  const middle = people < FEW_PEOPLE
    ? Number(combinations(people, Math.floor(people / 2))) / 2 ** people
    : Math.sqrt(2 / (Math.PI * people));
  return (1 + (people % 2)) * middle;
}

/**
 * How many ways there are to choose some of a number, exactly.
 * @param {number} number
 * @param {number} chosen
 */
function combinations(number, chosen) {
  let ways = 1n;
  for (let at = 1; at <= chosen; at++) ways = (ways * BigInt(number - chosen + at)) / BigInt(at);
  return ways;
}

/**
 * The verdict of two signals. Curves alone may raise an alarm; they never vouch for counts.
 * @param {Signal} counts
 * @param {Signal} curves
 * @returns {Finding}
 */
export function decide(counts, curves) {
  let errors = counts.errors;
  if (counts.shift === curves.shift && errors >= DOUBT) {
    errors = Math.max(errors, (errors + curves.errors) / Math.sqrt(2));
  }
  let verdict = Verdict.CANNOT_TELL;
  if (errors >= SURE) {
    // Counts may have slipped alone; curves that moved without the counts are no clear slip.
    if (curves.errors < SURE || curves.shift === 0 || curves.shift === counts.shift) {
      verdict = OF_SHIFT[counts.shift];
    }
  } else if (counts.errors < DOUBT && curves.errors >= SURE && curves.shift) {
    verdict = OF_SHIFT[curves.shift];
  }
  return { verdict, counts, curves };
}
