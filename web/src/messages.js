// A refusal in words: where in the book, what stands there, the rule, and the owner. As
// python/xaropinto/messages.py.

import { MESSAGES } from "../../target/web/tables.js";
import { CLASS, CODE, NEXT, SEX, SPARE, classIn, nextField, recordOf, stepTo } from "./chains.js";
import {
  CHAINS, HEADER_BYTES, LAST_CLASS, LONGEST_BOOK, RECORD_BYTES, SUBGROUPS, TABLES_AT, headerFields,
  heads, percentages, recordAt, recordCount,
} from "./layout.js";
import { grouped } from "./python_text.js";
import { BOOK, refusalOf } from "./refusals.js";

/** @typedef {import("./chains.js").Step} Step */
/** @typedef {import("./layout.js").Field} Field */
/** @typedef {import("./layout.js").Record} Record */

/** The calls whose refusals have words of their own. */
export const { CONVERT, WRITE, READ, RECORD, GROUP, FUNDS, PRACTICE } = MESSAGES;
const { SIGNATURES, TEXT_BYTES, FIRST_BYTES, TABLE_BYTES, SST_YEAR } = MESSAGES;
const { SHORT, BAD_EDITION, BAD_BASIS, BAD_LENGTH, BAD_TABLE_FILE } = MESSAGES;

/** The bytes that a call refused, as one book, and the call. */
class Subject {
  /** @param {Uint8Array} book @param {string} call */
  constructor(book, call) {
    this.book = book;
    this.call = call;
  }

  /** The age basis that the call reads. */
  ageBasis() {
    return this.call === CONVERT ? 2 : 1;
  }

  /** The class at which a chain ends. */
  lastClass() {
    return LAST_CLASS + this.ageBasis() - 1;
  }

  /**
   * A place in words: of two funds that of the file which has it.
   * @param {number} place
   * @returns {string}
   */
  byte(place) {
    if (this.call !== FUNDS) return `byte ${grouped(place)}`;
    const [file, at] = fundPlace(place);
    return `byte ${grouped(at)} of the ${file} file`;
  }
}

/**
 * Which file of a fund has a byte of the joined book, and where.
 * @param {number} place
 * @returns {[string, number]}
 */
function fundPlace(place) {
  if (TABLES_AT <= place && place < HEADER_BYTES) return ["table", place - TABLES_AT];
  return ["fund", place < TABLES_AT ? place : place - TABLE_BYTES];
}

/**
 * The refusal's words, those of the call; with the book's bytes also where and what.
 * @param {number} number
 * @param {number} place
 * @param {Uint8Array | null} [book]
 * @param {string} [call]
 * @returns {string}
 */
export function explain(number, place, book = null, call = BOOK) {
  if (book === null) return inWords(number, call);
  return inWords(
    number, call, foreign(number, book), foundAt(number, place, new Subject(book, call)));
}

/**
 * What was found, the rule and the owner.
 * @param {number} number
 * @param {string} call
 * @param {...string} found
 * @returns {string}
 */
function inWords(number, call, ...found) {
  const row = refusalOf(number, call);
  return [...found.filter((words) => words), `rule: ${row.rule}`, `owner: ${row.owner}`].join("; ");
}

/**
 * A fund's refusal, in places and lengths of the table file and the fund file.
 * @param {number} number
 * @param {number} place
 * @param {Uint8Array} table
 * @param {Uint8Array} fund
 * @returns {string}
 */
export function explainFund(number, place, table, fund) {
  if (number === BAD_TABLE_FILE) {
    return inWords(number, FUNDS, `the table file has ${grouped(table.length)} bytes`,
      foreign(SHORT, table, "table file"));
  }
  if (number === SHORT) {
    return inWords(number, FUNDS, foreign(number, fund, "fund file"),
      `the fund file has ${grouped(fund.length)} bytes`);
  }
  if (number === BAD_LENGTH) {
    return inWords(number, FUNDS, wrongLength("fund file", fund, TABLES_AT));
  }
  const joined = new Uint8Array(
    [...fund.subarray(0, TABLES_AT), ...table, ...fund.subarray(TABLES_AT)]);
  return inWords(number, FUNDS, foreign(number, fund, "fund file"),
    foundAt(number, place, new Subject(joined, FUNDS)));
}

/**
 * The file of a fund's refusal, `table` or `fund`, and the place or length in it.
 * @param {number} number
 * @param {number} place
 * @param {Uint8Array} fund
 * @returns {[string, number]}
 */
export function refusedFile(number, place, fund) {
  if (number === BAD_TABLE_FILE) return ["table", place];
  return [SHORT, BAD_LENGTH].includes(number) ? ["fund", fund.length] : fundPlace(place);
}

/**
 * That a file is none of its kind at all, where its beginning shows what it is.
 * @param {number} number
 * @param {Uint8Array} book
 * @param {string} [due]
 * @returns {string}
 */
function foreign(number, book, due = "book") {
  const kind = [SHORT, BAD_EDITION].includes(number) ? kindOf(book) : "";
  return kind ? `this is no ${due} at all: it looks like ${kind}` : "";
}

/**
 * What a file is by its beginning; nothing where that is not known.
 * @param {Uint8Array} book
 * @returns {string}
 */
export function kindOf(book) {
  if (!book.length) return "an empty file";
  for (const row of SIGNATURES) {
    const [signature, kind] = /** @type {[number[], string]} */ (row);
    if (signature.every((byte, at) => book[at] === byte)) return kind;
  }
  const isText = (/** @type {number} */ byte) =>
    TEXT_BYTES.some(([first, last]) => first <= byte && byte <= last);
  return book.subarray(0, FIRST_BYTES).every(isText) ? "text" : "";
}

/**
 * Where a book's refusal points, and what stands there; nothing where it is not the book's.
 * @param {number} number
 * @param {number} place
 * @param {Subject} subject
 * @returns {string}
 */
function foundAt(number, place, subject) {
  const { book } = subject;
  if (number === SHORT) return `the file has ${grouped(place)} bytes`;
  if (number === BAD_LENGTH) return wrongLength("book", book, HEADER_BYTES);
  if (number === BAD_BASIS) return wrongBasis(subject);
  if (number === 23) return atField(fieldAt(percentages(), place), subject);
  if (number === 4 && place === 6) {
    return `${subject.byte(6)} is ${book[6]} and ${subject.byte(7)} is ${book[7]}`;
  }
  if ([2, 4, 6, 7, 8].includes(number)) return atField(fieldAt(headerFields(), place), subject);
  if (number === 9 && 0 < place && place < HEADER_BYTES) {
    return beyondRecords(fieldAt(heads(), place), subject);
  }
  if ([9, 10, 11, 12, 13, 21].includes(number) && place >= HEADER_BYTES) {
    return inRecord(number, place, subject);
  }
  return "";
}

/**
 * The field that stands at a place.
 * @param {Field[]} fields
 * @param {number} place
 * @returns {Field}
 */
function fieldAt(fields, place) {
  const found = fields.find((field) => field.at === place);
  if (!found) throw new RangeError(`no field stands at byte ${place}`);
  return found;
}

/**
 * A file's length, and the one that its number of records asks for.
 * @param {string} kind
 * @param {Uint8Array} held
 * @param {number} beforeRecords
 * @returns {string}
 */
function wrongLength(kind, held, beforeRecords) {
  const count = recordCount(held);
  const due = beforeRecords + RECORD_BYTES * count;
  const longest = LONGEST_BOOK - HEADER_BYTES + beforeRecords;
  const longer = held.length > longest ? `; no ${kind} is as long` : "";
  const file = kind === "book" ? "file" : kind;
  const records = `its ${grouped(count)} records ask for ${grouped(due)}`;
  return `the ${file} has ${grouped(held.length)} bytes, and ${records}${longer}`;
}

/**
 * The age basis that is found and the one that is read; and what turns basis 2 into basis 1.
 * @param {Subject} subject
 * @returns {string}
 */
function wrongBasis(subject) {
  const due = subject.ageBasis(), found = subject.book[1];
  const words = atField(fieldAt(headerFields(), 1).with({ low: due, high: due }), subject);
  if (found === 2 && due === 1) {
    return `${words}; \`xaropinto convert\` turns a book of age basis 2 into one of basis 1`;
  }
  return found === 1 && due === 2 ? `${words}; a book of age basis 1 needs no conversion` : words;
}

/**
 * A field, the value found and its range.
 * @param {Field} field
 * @param {Subject} subject
 * @returns {string}
 */
function atField(field, subject) {
  const [found, low, high] = [field.read(subject.book), field.low, field.high].map(
    (number) => shown(field, number));
  const due = low === high ? low : `${low} to ${high}${field.unit ? " " : ""}${field.unit}`;
  return `${field.name} at ${subject.byte(field.at)} is ${found}; it must be ${due}`;
}

/**
 * A field's number as people read it; a year has no separator.
 * @param {Field} field
 * @param {number} number
 * @returns {string}
 */
function shown(field, number) {
  return field.name === SST_YEAR ? String(number) : grouped(number);
}

/**
 * A head or next that names no record.
 * @param {Field} field
 * @param {Subject} subject
 * @returns {string}
 */
function beyondRecords(field, subject) {
  const { book } = subject;
  const found = `${field.name} at ${subject.byte(field.at)} is ${grouped(field.read(book))}`;
  return `${found}; the book has ${grouped(recordCount(book))} records`;
}

/**
 * A fault in a linked record: the chain that is read, the record, its class, what is wrong.
 * @param {number} number
 * @param {number} place
 * @param {Subject} subject
 * @returns {string}
 */
function inRecord(number, place, subject) {
  const record = recordAt(place);
  const step = stepTo(subject.book, record.number, (each) => isFault(number, each, subject));
  const named = step ? `${CHAINS[step.chain]}, ` : "";
  const where = `${named}record ${grouped(record.number)}, class ${classIn(record, subject.book)}`;
  return `${where}: ${wrongInRecord(number, place, record, step, subject)}`;
}

/**
 * Is the rule broken at this step? All but two are broken by the record alone.
 * @param {number} number
 * @param {Step} step
 * @param {Subject} subject
 * @returns {boolean}
 */
function isFault(number, step, subject) {
  if (number === 10) return wrongStart(step, subject) !== "";
  if (number === 11) {
    const held = classIn(step.record, subject.book);
    return step.before.length ? held !== dueClass(step, subject) : held > subject.lastClass();
  }
  return true;
}

/**
 * What is wrong in a record.
 * @param {number} number
 * @param {number} place
 * @param {Record} record
 * @param {Step | undefined} step
 * @param {Subject} subject
 * @returns {string}
 */
function wrongInRecord(number, place, record, step, subject) {
  if (number === 12) return atField(fieldAt(record.fields(), place), subject);
  if (number === 9) return beyondRecords(nextField(record).with({ name: "next" }), subject);
  if (number === 13) return wrongEnd(record, step, subject);
  if (number === 10 && step) return `${ledBy(step, subject)}; ${wrongStart(step, subject)}`;
  if (number === 11 && step) return wrongClass(step, subject);
  const at = subject.byte(record.start + CLASS);
  return `the class at ${at} is ${classIn(record, subject.book)}`;
}

/**
 * The head or next that leads to a record; and that it leads back, where it does.
 * @param {Step} step
 * @param {Subject} subject
 * @returns {string}
 */
function ledBy(step, subject) {
  const back = step.isLoop() ? "back " : "";
  return `${step.lead.name} at ${subject.byte(step.lead.at)} leads ${back}here`;
}

/**
 * The first byte of code, sex and spare bytes that is not the chain's, if there is one.
 * @param {Step} step
 * @param {Subject} subject
 * @returns {string}
 */
function wrongStart(step, subject) {
  const { book } = subject, { start } = step.record;
  /** @type {[string, number, number][]} */
  const bytes = [
    ["subgroup code", CODE, Math.floor(step.chain / 2) + 1], ["sex", SEX, step.chain % 2]];
  for (const spare of SPARE) bytes.push(["a spare byte", spare, 0]);
  for (const [name, offset, due] of bytes) {
    const held = book[start + offset];
    if (held !== due) {
      const isCode = offset === CODE && 0 < held && held <= SUBGROUPS.length;
      const own = isCode ? ` (${SUBGROUPS[held - 1]})` : "";
      return `${name} at ${subject.byte(start + offset)} is ${held}${own}; it must be ${due}`;
    }
  }
  return "";
}

/**
 * The class that must follow in the chain.
 * @param {Step} step
 * @param {Subject} subject
 * @returns {number}
 */
function dueClass(step, subject) {
  return classIn(step.before[step.before.length - 1], subject.book) + 1;
}

/**
 * The class found and the one that was due; or that the chain is a loop.
 * @param {Step} step
 * @param {Subject} subject
 * @returns {string}
 */
function wrongClass(step, subject) {
  const at = subject.byte(step.record.start + CLASS);
  const found = `the class at ${at} is ${classIn(step.record, subject.book)}`;
  const previous = step.previous();
  if (!previous) return `${found}; a first class is at most ${subject.lastClass()}`;
  const due = `${dueClass(step, subject)} was due after record ${grouped(previous.number)}`;
  if (step.isLoop()) return `the chain is a loop: ${ledBy(step, subject)}; ${due}`;
  return `${found}; ${due}, whose next at ${subject.byte(step.lead.at)} leads here`;
}

/**
 * A next that is not zero at the last class, or zero before it.
 * @param {Record} record
 * @param {Step | undefined} step
 * @param {Subject} subject
 * @returns {string}
 */
function wrongEnd(record, step, subject) {
  const number = nextField(record).read(subject.book), last = subject.lastClass();
  const words = `next at ${subject.byte(record.start + NEXT)} is ${grouped(number)}; `;
  if (number === 0) return `${words}the chain must go on up to class ${last}`;
  const { start } = recordOf(number);
  const loop = step && [...step.before, record].some((each) => each.start === start);
  return `${words}it must be 0 at class ${last}${loop ? ": the chain is a loop" : ""}`;
}
