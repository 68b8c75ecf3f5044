// The words of `xaropinto record`: the fields of one record, checked or not. As
// python/xaropinto/cli/record.py.

import * as answers from "./answers.js";
import { CLASS, CODE, NEXT, SEX, SPARE } from "./chains.js";
import { HEADER_BYTES, RECORD_BYTES, Record } from "./layout.js";
import { hex } from "./python_text.js";

/** There is no such record in a refused file. */
export class NoRecordError extends Error {
  name = "NoRecordError";
}

/**
 * The fields of a record, linked or not, as lines; of a refused book too, marked as not checked.
 * @param {string} path
 * @param {Uint8Array} book
 * @param {number} number
 * @returns {string[]}
 */
export function recordLines(path, book, number) {
  try {
    answers.check(book);
  } catch (refused) {
    if (!(refused instanceof answers.RefusedError)) throw refused;
    const held = uncheckedBytes(path, book, number);
    return [`not checked: the book is refused ${refused.number} ${refused.place}`,
      `bytes ${Array.from(held, (byte) => hex(byte, 2)).join(" ")}`, ...fieldLines(held)];
  }
  return fieldLines(answers.record(book, number));
}

/**
 * The bytes at a record's place, whatever the header says.
 * @param {string} path
 * @param {Uint8Array} book
 * @param {number} number
 * @returns {Uint8Array}
 */
function uncheckedBytes(path, book, number) {
  const start = HEADER_BYTES + RECORD_BYTES * (number - 1);
  const held = number ? book.slice(start, start + RECORD_BYTES) : new Uint8Array();
  if (held.length !== RECORD_BYTES) {
    const whole = Math.floor(Math.max(0, book.length - HEADER_BYTES) / RECORD_BYTES);
    throw new NoRecordError(
      `${path}: there is no record ${number}; the file is refused, and has bytes for ${whole}`);
  }
  return held;
}

/**
 * A record's bytes as fields.
 * @param {Uint8Array} held
 * @returns {string[]}
 */
function fieldLines(held) {
  const amounts = new Record(1, 0).fields().map((field) => `${field.name} ${field.read(held)}`);
  return [`code ${held[CODE]}`, `sex ${held[SEX]}`, `class ${held[CLASS]}`,
    `next ${held[NEXT] + 256 * held[NEXT + 1]}`,
    `spare ${SPARE.map((at) => held[at]).join(" ")}`, ...amounts];
}
