// How the check comes to a record: along which chain, by which head or next, after which record. As
// python/xaropinto/chains.py.

import { CHAINS as PLACES } from "../../target/web/tables.js";
import {
  Field, HEADER_BYTES, MOST_RECORDS, RECORD_BYTES, Record, heads, recordCount,
} from "./layout.js";
import { grouped } from "./python_text.js";

export const { CODE, SEX, CLASS, NEXT, SPARE } = PLACES;

/** A record that is read: its chain, the field that leads to it, and those before it. */
export class Step {
  /** @param {number} chain @param {Record} record @param {Field} lead @param {Record[]} before */
  constructor(chain, record, lead, before) {
    this.chain = chain;
    this.record = record;
    this.lead = lead;
    this.before = before;
  }

  /**
   * The record before it in the chain.
   * @returns {Record | undefined}
   */
  previous() {
    return this.before.at(-1);
  }

  /**
   * Was the record read before, in the same chain?
   * @returns {boolean}
   */
  isLoop() {
    return this.before.some((each) => each.number === this.record.number);
  }
}

/**
 * A record by its number.
 * @param {number} number
 * @returns {Record}
 */
export function recordOf(number) {
  return new Record(number, HEADER_BYTES + RECORD_BYTES * (number - 1));
}

/**
 * The field that leads on from a record.
 * @param {Record} record
 * @returns {Field}
 */
export function nextField(record) {
  return new Field([
    `next of record ${grouped(record.number)}`, record.start + NEXT, 2, 0, MOST_RECORDS]);
}

/**
 * A record's class.
 * @param {Record} record
 * @param {Uint8Array} book
 * @returns {number}
 */
export function classIn(record, book) {
  return book[record.start + CLASS];
}

/**
 * Every record in the order of the check; a chain that comes back to itself ends there.
 * @param {Uint8Array} book
 * @returns {Generator<Step>}
 */
export function* steps(book) {
  const count = recordCount(book);
  for (const [chain, head] of heads().entries()) {
    let lead = head;
    /** @type {Record[]} */
    let before = [];
    for (let number = lead.read(book); 0 < number && number <= count; number = lead.read(book)) {
      const step = new Step(chain, recordOf(number), lead, before);
      yield step;
      if (step.isLoop()) break;
      lead = nextField(step.record);
      before = [...before, step.record];
    }
  }
}

/**
 * The first step to a record, by its number, at which it fails.
 * @param {Uint8Array} book
 * @param {number} number
 * @param {(step: Step) => boolean} fails
 * @returns {Step | undefined}
 */
export function stepTo(book, number, fails) {
  for (const step of steps(book)) if (step.record.number === number && fails(step)) return step;
  return undefined;
}
