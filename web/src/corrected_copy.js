// A copy of a refused book in which one fault after the other is set to a permitted value. As
// python/xaropinto/corrected_copy.py.
//
// Corrections come to an end. Each brings a number into its range for good, or gives a record the
// code, sex or class of the chain that reads it, or shortens a chain: a head moves along its own
// chain, to each record once, or becomes 0, and a next becomes 0. So no chain ever reaches a record
// that it did not reach before, and what a chain has given up is not corrected for it again.

import { CORRECTED_COPY } from "../../target/web/tables.js";
import { calls } from "./answers.js";
import {
  CLASS, CODE, NEXT, SEX, SPARE, classIn, nextField, recordOf, steps,
} from "./chains.js";
import {
  CHAINS, HEADER_BYTES, LAST_CLASS, MOST_RECORDS, RECORD_BYTES, headerFields, heads, percentages,
  recordAt, recordCount,
} from "./layout.js";
import { CONVERT } from "./messages.js";
import { BOOK } from "./refusals.js";

/** @typedef {import("./layout.js").Field} Field */

export const { TOO_SHORT } = CORRECTED_COPY;
const { BAD_EDITION, BAD_BASIS, BAD_HEADER, BAD_LENGTH, NEWER_BASIS } = CORRECTED_COPY;
const { BAD_LINK, BAD_OWNER, BAD_CLASS, BAD_END, CLASS_0, FIELDS_OF_A_RECORD } = CORRECTED_COPY;

/** A book's bytes. Where it says basis 2, the proved converter judges it in place of Check. */
export class CorrectedCopy {
  /** @param {Uint8Array} book */
  constructor(book) {
    this.bytes = book.slice();
    this.newer = false;
    /**
     * Chains and the records that they were moved to.
     * @type {Set<string>}
     */
    this.movedTo = new Set();
  }

  /** How many fields a book of this length has; one at least. */
  fieldCount() {
    const records = Math.floor(Math.max(0, this.bytes.length - HEADER_BYTES) / RECORD_BYTES);
    const header = headerFields().length + percentages().length + heads().length;
    return header + FIELDS_OF_A_RECORD * records;
  }

  /** How many records no chain reaches. */
  unlinkedCount() {
    const linked = new Set();
    for (const step of steps(this.bytes)) linked.add(step.record.number);
    return recordCount(this.bytes) - linked.size;
  }

  /**
   * Of this copy, or of another book on the same basis.
   * @param {Uint8Array} [book]
   */
  verdict(book = this.bytes) {
    return this.newer ? calls().convert(book, new Uint8Array(book.length)) : calls().check(book);
  }

  /** The call whose words its refusals have. */
  call() {
    return this.newer ? CONVERT : BOOK;
  }

  /**
   * Set what was refused to a permitted value.
   * @param {number} number
   * @param {number} place
   */
  correct(number, place) {
    if (number === BAD_EDITION) {
      this.bytes[0] = percentages().every((field) => this.inRange(field)) ? 2 : 1;
    } else if (number === BAD_BASIS) {
      this.newer = this.bytes[1] === NEWER_BASIS;
      this.bytes[1] = this.newer ? NEWER_BASIS : 1;
    } else if (number === BAD_HEADER && place === 6) {
      this.put(6, 2, 0);
    } else if (number === BAD_LENGTH || (number === BAD_HEADER && place === 4)) {
      this.fitLength();
    } else if (number === BAD_LINK && place < HEADER_BYTES) {
      this.put(place, 2, 0);
    } else if ([BAD_LINK, BAD_OWNER, BAD_CLASS, BAD_END, CLASS_0].includes(number)) {
      this.correctRecord(number, recordAt(place).number);
    } else {
      this.clamp(place);
    }
  }

  /**
   * Set a field; a negative number is written as its complement.
   * @param {number} at
   * @param {number} size
   * @param {number} number
   */
  put(at, size, number) {
    for (let place = 0; place < size; place++) {
      this.bytes[at + place] = Math.floor(number / 256 ** place) & 0xff;
    }
  }

  /**
   * Has a field a permitted value?
   * @param {Field} field
   */
  inRange(field) {
    const number = field.read(this.bytes);
    return field.low <= number && number <= field.high;
  }

  /** As many records as the file has bytes for; what is left over is cut off. */
  fitLength() {
    const held = Math.floor((this.bytes.length - HEADER_BYTES) / RECORD_BYTES);
    const records = Math.min(MOST_RECORDS, held);
    this.put(4, 2, records);
    this.bytes = this.bytes.slice(0, HEADER_BYTES + RECORD_BYTES * records);
  }

  /**
   * Bring a field to the nearer end of its range.
   * @param {number} place
   */
  clamp(place) {
    const inHeader = place < HEADER_BYTES;
    const fields = inHeader ? [...percentages(), ...headerFields()] : recordAt(place).fields();
    const field = /** @type {Field} */ (fields.find((each) => each.at === place));
    this.put(field.at, field.size,
      Math.max(field.low, Math.min(field.high, field.read(this.bytes))));
  }

  /**
   * A fault of a record in the chain that is read: of the record, or of the chain.
   * @param {number} number
   * @param {number} record
   */
  correctRecord(number, record) {
    const chain = this.chainAtFault();
    const path = this.pathTo(chain, record, number === BAD_CLASS);
    if (number === BAD_OWNER) this.correctOwner(chain, record);
    else if ([BAD_CLASS, CLASS_0].includes(number)) this.correctClass(chain, path);
    else if (number === BAD_END && this.classOf(record) === this.lastClass()) {
      this.put(recordOf(record).start + NEXT, 2, 0);
    } else this.setHead(chain, 0);
  }

  /** The first chain with which the book is refused when all heads behind it are 0. */
  chainAtFault() {
    for (const [chain, head] of heads().entries()) {
      const without = this.bytes.slice();
      without.fill(0, head.at + head.size, heads()[CHAINS.length - 1].at + head.size);
      if (this.verdict(without).refusal) return chain;
    }
    throw new Error("no chain of the book is refused");
  }

  /**
   * The records of a chain from its head to the one at fault, which a loop reaches twice.
   * @param {number} chain
   * @param {number} record
   * @param {boolean} wrongClass
   */
  pathTo(chain, record, wrongClass) {
    const path = [heads()[chain].read(this.bytes)];
    while (path[path.length - 1] !== record || (wrongClass && !this.classFails(path))) {
      path.push(this.nextOf(path[path.length - 1]));
    }
    return path;
  }

  /**
   * Does the class of the last record break the rule of chains?
   * @param {number[]} path
   */
  classFails(path) {
    const found = this.classOf(path[path.length - 1]);
    return path.length === 1 ? found > this.lastClass() : found !== this.dueClass(path);
  }

  /**
   * One more than the class of the record before.
   * @param {number[]} path
   */
  dueClass(path) {
    return this.classOf(path[path.length - 2]) + 1;
  }

  /** At which a chain ends. */
  lastClass() {
    return this.newer ? LAST_CLASS + 1 : LAST_CLASS;
  }

  /**
   * A record's class.
   * @param {number} record
   */
  classOf(record) {
    return classIn(recordOf(record), this.bytes);
  }

  /**
   * The number that follows a record in its chain.
   * @param {number} record
   */
  nextOf(record) {
    return nextField(recordOf(record)).read(this.bytes);
  }

  /**
   * Let a chain start elsewhere, or nowhere.
   * @param {number} chain
   * @param {number} record
   */
  setHead(chain, record) {
    this.put(heads()[chain].at, 2, record);
  }

  /**
   * The first byte that is not the chain's; but a record of another chain stays as it is, and the
   * chain that was led into it is given up.
   * @param {number} chain
   * @param {number} record
   */
  correctOwner(chain, record) {
    const { start } = recordOf(record), code = Math.floor(chain / 2) + 1, sex = chain % 2;
    const isForeign = this.bytes[start + CODE] !== code || this.bytes[start + SEX] !== sex;
    if (isForeign && this.reachedByItsOwn(record)) {
      this.setHead(chain, 0);
      return;
    }
    /** @type {[number, number][]} */
    const due = [[CODE, code], [SEX, sex]];
    for (const spare of SPARE) due.push([spare, 0]);
    const [at, byte] = /** @type {[number, number]} */ (
      due.find(([offset, each]) => this.bytes[start + offset] !== each));
    this.bytes[start + at] = byte;
  }

  /**
   * Does the chain of a record's own code and sex reach it?
   * @param {number} record
   */
  reachedByItsOwn(record) {
    const { start } = recordOf(record), sex = this.bytes[start + SEX];
    const chain = 2 * (this.bytes[start + CODE] - 1) + sex;
    if (sex > 1 || chain < 0 || chain >= CHAINS.length) return false;
    const count = recordCount(this.bytes);
    let at = heads()[chain].read(this.bytes);
    for (let step = 0; step < count && at !== record && 0 < at && at <= count; step++) {
      at = this.nextOf(at);
    }
    return at === record;
  }

  /**
   * The class where that alone is wrong; else the chain starts anew at the first record whose class
   * can stand, once, so that what follows is checked too. A loop was checked before.
   * @param {number} chain
   * @param {number[]} path
   */
  correctClass(chain, path) {
    const isFirst = path.length === 1, record = path[path.length - 1];
    const following = this.nextOf(record), asked = this.dueFromNext(following);
    const due = isFirst ? asked : this.dueClass(path), start = isFirst ? following : record;
    const moved = `${chain} ${start}`;
    const canStand = due !== null && due === asked
      && this.firstClass() <= due && due <= this.lastClass();
    if (path.slice(0, -1).includes(record)) {
      this.setHead(chain, 0);
    } else if (canStand) {
      this.bytes[recordOf(record).start + CLASS] = /** @type {number} */ (due);
    } else if (this.movedTo.has(moved) || start > recordCount(this.bytes)) {
      this.setHead(chain, 0);
    } else {
      this.movedTo.add(moved);
      this.setHead(chain, start);
    }
  }

  /** The lowest on the book's basis. */
  firstClass() {
    return this.newer ? 1 : 0;
  }

  /**
   * The class of a record by the one behind it; none where there is no such record.
   * @param {number} following
   * @returns {number | null}
   */
  dueFromNext(following) {
    if (following === 0) return this.lastClass();
    return following <= recordCount(this.bytes) ? this.classOf(following) - 1 : null;
  }
}
