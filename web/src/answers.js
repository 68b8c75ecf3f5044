// The calls as functions that answer with figures, or throw `RefusedError`. As
// python/xaropinto/answers.py, over web/src/calls.js. Figures that may be beyond 2^53 are BigInts,
// all others Numbers.

import { ANSWERS } from "../../target/web/tables.js";
import { headerOf, listsOf, recordsIn, takenApart } from "./book_values.js";
import { HEADER_BYTES, LONGEST_BOOK, MOST_RECORDS, RECORD_BYTES, YEARS } from "./layout.js";
import {
  CONVERT, FUNDS, GROUP, PRACTICE, READ, RECORD, WRITE, explain, explainFund,
} from "./messages.js";
import { BOOK, refusalOf } from "./refusals.js";

/** @typedef {import("./book_values.js").BookValues} BookValues */
/** @typedef {ReturnType<typeof import("./calls.js").openCalls>} Calls */

const { TABLE_NUMBERS, MOST_LISTING_BYTES } = ANSWERS;
/** Of the product groups' years: premium after the cap, outgo, and both discounted. */
const YEAR_NUMBERS = TABLE_NUMBERS / YEARS;
const FUND_TOTALS = 8;

/** @type {Calls | undefined} */
let opened;

/**
 * Use these calls from now on.
 * @param {Calls} calls
 */
export function useCalls(calls) {
  opened = calls;
}

/**
 * The calls in use.
 * @returns {Calls}
 */
export function calls() {
  if (!opened) throw new Error("no calls are in use: useCalls comes first");
  return opened;
}

/** The first rule that is broken: its number, the place, both in words, and the owner. */
export class RefusedError extends Error {
  /** @param {number} number @param {number} place @param {string} words @param {string} owner */
  constructor(number, place, words, owner = "") {
    super(`refused ${number} ${place}: ${words}`);
    this.name = "RefusedError";
    this.number = number;
    this.place = place;
    this.words = words;
    this.owner = owner;
  }

  /**
   * The same refusal, with words of what it was found in before its own.
   * @param {string} found
   * @returns {RefusedError}
   */
  at(found) {
    const words = found ? `${found}; ${this.words}` : this.words;
    return new RefusedError(this.number, this.place, words, this.owner);
  }

  /**
   * The same refusal, at its place in another file.
   * @param {number} place
   * @returns {RefusedError}
   */
  moved(place) {
    return new RefusedError(this.number, place, this.words, this.owner);
  }
}

/**
 * A product group in a setting: liability in centimes, n, and fifty years, each with premium after
 * the cap, outgo, and both discounted.
 * @typedef {{liability: bigint, n: number, years: bigint[][]}} Group
 */
/**
 * The totals by setting in centimes; the differences of settings 1 less 2, 3 less 4, 5 less 6, 7
 * less 0.
 * @typedef {{n: number, totals: bigint[], differences: bigint[]}} Totals
 */
/**
 * In force of a cell in billionths of a contract, for k = 0 to 49.
 * @typedef {{inForce: bigint[]}} Cell
 */
/**
 * Mean and coefficient of yearly claims; no coefficient where all are level.
 * @typedef {{mean: number, coefficient: number | null}} Spread
 */
/**
 * One standard deviation of the four factors.
 * @typedef {{thousandFrancs: bigint}} Deviation
 */
/**
 * n and the totals by setting of one of two funds, in centimes.
 * @typedef {{n: number, totals: bigint[]}} FundTotals
 */

/**
 * Throw where a call refused, in the words of the call.
 * @param {{refusal: bigint, place: bigint}} reply
 * @param {Uint8Array | null} [book]
 * @param {string} [call]
 */
function needAccepted(reply, book = null, call = BOOK) {
  if (reply.refusal) {
    const number = Number(reply.refusal), place = Number(reply.place);
    const words = explain(number, place, book, call);
    throw new RefusedError(number, place, words, refusalOf(number, call).owner);
  }
}

/**
 * n, the number of linked records that hold contracts.
 * @param {Uint8Array} book
 * @returns {number}
 */
export function check(book) {
  const reply = calls().check(book);
  needAccepted(reply, book);
  return Number(reply.n);
}

/**
 * The liability of a product group in a setting, with its years.
 * @param {Uint8Array} book
 * @param {number} setting
 * @param {number} productGroup
 * @returns {Group}
 */
export function group(book, setting, productGroup) {
  const table = new BigUint64Array(TABLE_NUMBERS);
  const reply = calls().group(book, setting, productGroup, table);
  needAccepted(reply, book, GROUP);
  const years = Array.from({ length: YEARS }, (_, year) =>
    Array.from(table.subarray(YEAR_NUMBERS * year, YEAR_NUMBERS * (year + 1))));
  return { liability: reply.liability, n: Number(reply.n), years };
}

/**
 * The eight totals and the four differences.
 * @param {Uint8Array} book
 * @returns {Totals}
 */
export function totals(book) {
  const reply = calls().totals(book);
  needAccepted(reply, book);
  return { n: Number(reply.n), totals: reply.totals, differences: reply.differences };
}

/**
 * The text to file: a line for each setting.
 * @param {Uint8Array} book
 * @returns {string}
 */
export function listing(book) {
  const buffer = new Uint8Array(MOST_LISTING_BYTES);
  const reply = calls().listing(book, buffer);
  needAccepted(reply, book);
  return asciiOf(buffer.subarray(0, Number(reply.length)));
}

/**
 * The year report of a setting, as comma-separated lines.
 * @param {Uint8Array} book
 * @param {number} setting
 * @returns {string}
 */
export function report(book, setting) {
  const needed = calls().reportRoom(book, setting);
  needAccepted(needed, book);
  const buffer = new Uint8Array(Number(needed.length));
  const reply = calls().report(book, setting, buffer);
  needAccepted(reply, book);
  return asciiOf(buffer.subarray(0, Number(reply.length)));
}

/**
 * The text of bytes that are all of ASCII.
 * @param {Uint8Array} bytes
 * @returns {string}
 */
function asciiOf(bytes) {
  return new TextDecoder("utf-8", { fatal: true, ignoreBOM: true }).decode(bytes);
}

/**
 * The 24 bytes of a record, counted from 1.
 * @param {Uint8Array} book
 * @param {number} number
 * @returns {Uint8Array}
 */
export function record(book, number) {
  const reply = calls().record(book, number);
  needAccepted(reply, book, reply.place ? BOOK : RECORD);
  return book.slice(Number(reply.start), Number(reply.start + reply.length));
}

/**
 * In force of one cell over fifty years.
 * @param {Uint8Array} book
 * @param {number} setting
 * @param {number} code
 * @param {number} sex
 * @param {number} ageClass
 * @returns {Cell}
 */
export function cell(book, setting, code, sex, ageClass) {
  const numbers = new BigUint64Array(YEARS);
  needAccepted(calls().inForce(book, setting, code, sex, ageClass, numbers), book);
  return { inForce: Array.from(numbers) };
}

/**
 * The values and lists of a book.
 * @param {Uint8Array} book
 * @returns {BookValues}
 */
export function read(book) {
  const [counts, lapses, premiums, claims] = [0, 1, 2, 3].map(
    () => new BigUint64Array(MOST_RECORDS));
  const reply = calls().read(book, counts, lapses, premiums, claims);
  needAccepted(reply, book, READ);
  return takenApart(reply.values, [counts, lapses, premiums, claims]);
}

/**
 * The book of values and lists.
 * @param {BookValues} values
 * @returns {Uint8Array}
 */
export function write(values) {
  const buffer = new Uint8Array(HEADER_BYTES + RECORD_BYTES * Math.max(0, recordsIn(values)));
  const [counts, lapses, premiums, claims] = listsOf(values);
  const reply = calls().write(headerOf(values), counts, lapses, premiums, claims, buffer);
  needAccepted(reply, null, WRITE);
  return buffer.slice(0, Number(reply.length));
}

/**
 * The book of age basis 2 on basis 1.
 * @param {Uint8Array} book
 * @returns {Uint8Array}
 */
export function convert(book) {
  const buffer = new Uint8Array(book.length);
  needAccepted(calls().convert(book, buffer), book, CONVERT);
  return buffer;
}

/**
 * Each fund's n and totals, or the error that it is refused with: one fund does not hold back the
 * other.
 * @param {Uint8Array} table
 * @param {Uint8Array} first
 * @param {Uint8Array} second
 * @returns {(FundTotals | RefusedError)[]}
 */
export function funds(table, first, second) {
  const numbers = new BigInt64Array(2 * FUND_TOTALS);
  const verdicts = calls().funds(table, first, second, numbers);
  return [first, second].map((fund, at) => {
    const { refusal, place, n } = verdicts[at];
    if (!refusal) {
      const held = numbers.subarray(FUND_TOTALS * at, FUND_TOTALS * (at + 1));
      return { n: Number(n), totals: Array.from(held) };
    }
    const number = Number(refusal), words = explainFund(number, Number(place), table, fund);
    return new RefusedError(number, Number(place), words, refusalOf(number, FUNDS).owner);
  });
}

/**
 * The cost rates of PG1 to PG5 out of three years of accounts, in millionths.
 * @param {(number | bigint)[]} expenses
 * @param {(number | bigint)[][]} stock
 * @param {(number | bigint)[][]} claims
 * @param {(number | bigint)[][]} premium
 * @returns {number[]}
 */
export function costRates(expenses, stock, claims, premium) {
  const reply = calls().costRates(expenses, stock, claims, premium);
  needAccepted(reply);
  return reply.rates.map(Number);
}

/**
 * Mean and coefficient of yearly claims, of the five figures from the lowest to the highest.
 * @param {[number, number, number, number, number]} figures
 * @param {number} xi
 * @param {number} eta
 * @returns {Spread}
 */
export function spread(figures, xi, eta) {
  const reply = calls().spread(...figures, xi, eta);
  needAccepted(reply);
  return { mean: reply.mean, coefficient: reply.level ? null : reply.coefficient };
}

/**
 * One standard deviation of the four factors.
 * @param {Uint8Array} book
 * @param {(number | bigint)[]} coefficients
 * @param {(number | bigint)[][]} correlation
 * @returns {Deviation}
 */
export function deviation(book, coefficients, correlation) {
  const reply = calls().deviation(book, coefficients, correlation);
  needAccepted(reply, book);
  return { thousandFrancs: reply.deviation };
}

/**
 * The practice book of a start number.
 * @param {number | bigint} start
 * @returns {Uint8Array}
 */
export function practice(start) {
  const buffer = new Uint8Array(LONGEST_BOOK);
  const reply = calls().practice(start, buffer);
  needAccepted(reply, null, PRACTICE);
  return buffer.slice(0, Number(reply.length));
}
