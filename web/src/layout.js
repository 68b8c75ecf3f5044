// Where the fields of a book stand, so that a refusal's place can be put into words. No figure
// comes from it. As python/xaropinto/layout.py, whose fields and ranges are in tables.js.

import { LAYOUT } from "../../target/web/tables.js";

export const {
  HEADER_BYTES, RECORD_BYTES, MOST_RECORDS, LONGEST_BOOK, TABLES_AT, LAST_CLASS, NO_CLASS, YEARS,
  CURVE_RATES, SUBGROUPS, GROUPS, SEXES, CHAINS, SETTINGS,
} = LAYOUT;

/** A number of a book: its name, where it stands, the range that it must keep, and its unit. */
export class Field {
  /** @param {any[]} row name, at, size, low, high, unit, signed */
  constructor([name, at, size, low, high, unit = "", signed = false]) {
    /** @type {string} */ this.name = name;
    /** @type {number} */ this.at = at;
    /** @type {number} */ this.size = size;
    /** @type {number} */ this.low = low;
    /** @type {number} */ this.high = high;
    /** @type {string} */ this.unit = unit;
    /** @type {boolean} */ this.signed = signed;
  }

  /**
   * The number as it stands in the book.
   * @param {Uint8Array} book
   * @returns {number}
   */
  read(book) {
    const bytes = book.subarray(this.at, this.at + this.size);
    const number = bytes.reduceRight((above, byte) => above * 256 + byte, 0);
    const limit = 256 ** bytes.length;
    return this.signed && number >= limit / 2 ? number - limit : number;
  }

  /**
   * The field with some of its parts changed.
   * @param {Partial<Field>} parts
   * @returns {Field}
   */
  with(parts) {
    return Object.assign(new Field([]), this, parts);
  }
}

/** Where a record stands, and its fields that have a range of their own. */
export class Record {
  /** @param {number} number @param {number} start */
  constructor(number, start) {
    this.number = number;
    this.start = start;
  }

  /**
   * Its amounts.
   * @returns {Field[]}
   */
  fields() {
    return LAYOUT.recordFields.map(([name, at, ...range]) =>
      new Field([name, this.start + Number(at), ...range]));
  }
}

/**
 * The fields of header and tables that have a range, in the order of their places.
 * @returns {Field[]}
 */
export function headerFields() {
  return LAYOUT.headerFields.flatMap(([stem, first, count, at, size, ...range]) =>
    Array.from({ length: Number(count) }, (_, step) => new Field([
      first === null ? stem : `${stem}${Number(first) + step}`,
      Number(at) + Number(size) * step, size, ...range])));
}

/**
 * What bytes 6 and 7 are in edition 2.
 * @returns {Field[]}
 */
export function percentages() {
  return LAYOUT.percentages.map((row) => new Field(row));
}

/**
 * The heads of the 14 chains; a book's N is the most that one may be.
 * @returns {Field[]}
 */
export function heads() {
  return LAYOUT.heads.map((row) => new Field(row));
}

/**
 * The record that a place belongs to.
 * @param {number} place
 * @returns {Record}
 */
export function recordAt(place) {
  const number = Math.floor((place - HEADER_BYTES) / RECORD_BYTES) + 1;
  return new Record(number, HEADER_BYTES + RECORD_BYTES * (number - 1));
}

/**
 * N, as the header says it.
 * @param {Uint8Array} book
 * @returns {number}
 */
export function recordCount(book) {
  return new Field(["number of records", 4, 2]).read(book);
}
