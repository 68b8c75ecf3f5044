/**
 * The proved calls, compiled to WebAssembly, as python/xaropinto/calls.py has them.
 *
 * `include/xaropinto.h` says what each call answers and which refusals it gives. What is passed is
 * copied into the module's memory before a call; after it, what the call wrote is copied back into
 * the buffer that was passed. So passed buffers may overlap; of two that are written and overlap,
 * the later one's numbers stay.
 *
 * A number of 64 bits is passed as a Number or a BigInt, and is a BigInt in a reply. A Number that
 * is not whole, or one that does not fit, is a RangeError; a buffer of another type is a TypeError.
 * Neither a trap of the module nor memory that cannot grow is caught here: after such an error the
 * module must be opened again.
 */

/** @typedef {bigint | number} Whole a whole number of 64 bits */
/** @typedef {ArrayLike<Whole>} Row */
/** @typedef {Uint8Array | BigUint64Array | BigInt64Array} Buffer */
/** @typedef {{view: Buffer, written: boolean}} PassedBuffer passed as a pointer and its length */
/** @typedef {{struct: bigint[]}} PassedStruct passed as a pointer to a copy */
/** @typedef {bigint | number | PassedBuffer | PassedStruct} Passed a number is a double */

/** @typedef {{refusal: bigint, place: bigint}} Refusal refusal 0 means accepted */
/** @typedef {Refusal & {n: bigint}} Verdict n: linked records whose count is not 0 */
/** @typedef {Refusal & {liability: bigint, n: bigint}} GroupReply in centimes */
/** @typedef {Verdict & {totals: bigint[], differences: bigint[]}} TotalsReply by setting */
/** @typedef {Refusal & {start: bigint, length: bigint}} RecordReply */
/** @typedef {Refusal & {rates: bigint[]}} CostRates PG1 to PG5, in millionths of premium */
/** @typedef {Refusal & {length: bigint}} LengthReply of the text or the book that was written */
/** @typedef {Refusal & {values: Values}} ReadReply values: zeros where the book is refused */
/** @typedef {Refusal & {level: boolean, mean: number, coefficient: number}} Spread */
/** @typedef {Refusal & {deviation: bigint}} DeviationReply in thousand francs */

/**
 * A book's values, each a Number or a BigInt where they are passed, a BigInt in a reply.
 * @template [W=bigint]
 * @typedef {object} Values
 * @property {W} edition
 * @property {ArrayLike<W>} percentages mortality of men and of women, both 0 in edition 1
 * @property {W} year
 * @property {ArrayLike<W>} costRates PG1 to PG5
 * @property {ArrayLike<W>} curve the rates for k = 1 to 49
 * @property {ArrayLike<W>} mortality classes 0 to 120 of men, then of women
 * @property {ArrayLike<W>} firstClasses of the 14 chains, 121 for a chain without records
 */

/**
 * What the module exports; the calls are found by their names.
 * @typedef {{memory: WebAssembly.Memory, __heap_base: WebAssembly.Global}} Module
 */

const WORD_BYTES = 8;
/** What is passed starts at a multiple of this. */
const ALIGNMENT = 16;
const PAGE_BYTES = 65536;

const SEXES = 2;
const YEARS = 3;
const PRODUCT_GROUPS = 5;
const FACTORS = 4;
const SETTINGS = 8;
const DIFFERENCES = 4;
const CURVE_RATES = 49;
const MORTALITIES = 242;
const CHAINS = 14;

/** Fields of the values, in the order of the header, with their lengths. */
const EDITION_AT = 0;
const PERCENTAGES_AT = EDITION_AT + 1;
const YEAR_AT = PERCENTAGES_AT + SEXES;
const COST_RATES_AT = YEAR_AT + 1;
const CURVE_AT = COST_RATES_AT + PRODUCT_GROUPS;
const MORTALITY_AT = CURVE_AT + CURVE_RATES;
const FIRST_CLASSES_AT = MORTALITY_AT + MORTALITIES;
const VALUES_WORDS = FIRST_CLASSES_AT + CHAINS;

/** @param {number} bytes @returns {number} so many, up to where the next buffer may start */
function aligned(bytes) {
  return Math.ceil(bytes / ALIGNMENT) * ALIGNMENT;
}

/** @param {Whole} number @returns {bigint} one that fits, which WebAssembly would cut silently */
function word(number) {
  const value = BigInt(number);
  if (BigInt.asUintN(64, value) !== value) throw new RangeError(`${number} is beyond 64 bits`);
  return value;
}

/** @param {Whole} number @returns {bigint} the same of a signed number */
function signedWord(number) {
  const value = BigInt(number);
  if (BigInt.asIntN(64, value) !== value) throw new RangeError(`${number} is beyond 64 bits`);
  return value;
}

/**
 * So many numbers of a row.
 * @param {string} name
 * @param {Row} row
 * @param {number} count
 * @param {(number: Whole) => bigint} [one]
 * @returns {bigint[]}
 */
function numbers(name, row, count, one = word) {
  if (row.length !== count) throw new RangeError(`${name}: ${count} numbers are due`);
  return Array.from(row, one);
}

/**
 * Rows of so many numbers, end to end.
 * @param {string} name
 * @param {ArrayLike<Row>} rows
 * @param {number} count how many rows
 * @param {number} length of each row
 * @param {(number: Whole) => bigint} [one]
 * @returns {bigint[]}
 */
function table(name, rows, count, length, one = word) {
  if (rows.length !== count) throw new RangeError(`${name}: ${count} rows are due`);
  return Array.from(rows).flatMap((row) => numbers(name, row, length, one));
}

/** @param {Uint8Array} view @returns {PassedBuffer} bytes that the call reads */
function bytesRead(view) {
  return passedBuffer(view, Uint8Array, false);
}

/** @param {Uint8Array} view @returns {PassedBuffer} bytes that the call writes */
function bytesWritten(view) {
  return passedBuffer(view, Uint8Array, true);
}

/** @param {BigUint64Array} view @returns {PassedBuffer} numbers that the call writes */
function numbersWritten(view) {
  return passedBuffer(view, BigUint64Array, true);
}

/**
 * @param {Buffer} view
 * @param {typeof Uint8Array | typeof BigUint64Array | typeof BigInt64Array} type
 * @param {boolean} written
 * @returns {PassedBuffer}
 */
function passedBuffer(view, type, written) {
  if (!(view instanceof type)) throw new TypeError(`the buffer must be a ${type.name}`);
  return { view, written };
}

/** The memory of one call, from the module's own on: it begins again with each. */
class CallMemory {
  /** @param {Module} module */
  constructor(module) {
    this.memory = module.memory;
    this.end = aligned(Number(module.__heap_base.value));
    /** @type {{view: Buffer, start: number}[]} */
    this.written = [];
  }

  /** @param {number} bytes @returns {number} where so many start; the memory grows as needed */
  reserve(bytes) {
    const start = this.end;
    this.end += aligned(bytes);
    const missing = this.end - this.memory.buffer.byteLength;
    if (missing > 0) this.memory.grow(Math.ceil(missing / PAGE_BYTES));
    return start;
  }

  /** @param {number} start @param {number} bytes @returns {Uint8Array} the module's own bytes */
  bytes(start, bytes) {
    return new Uint8Array(this.memory.buffer, start, bytes);
  }

  /** @param {Buffer} view @returns {number} where its copy starts */
  copyIn(view) {
    const start = this.reserve(view.byteLength);
    this.bytes(start, view.byteLength).set(bytesOf(view));
    return start;
  }

  /** Copy what the call wrote back into what was passed. */
  copyOut() {
    for (const { view, start } of this.written) {
      bytesOf(view).set(this.bytes(start, view.byteLength));
    }
  }

  /** @param {Passed} passed @returns {(bigint | number)[]} what WebAssembly is passed for it */
  words(passed) {
    if (typeof passed !== "object") return [passed];
    if ("struct" in passed) {
      return [this.copyIn(BigUint64Array.from(passed.struct, (each) => BigInt.asUintN(64, each)))];
    }
    const start = this.copyIn(passed.view);
    if (passed.written) this.written.push({ view: passed.view, start });
    return [start, BigInt(passed.view.length)];
  }
}

/** @param {Buffer} view @returns {Uint8Array} its own bytes */
function bytesOf(view) {
  return new Uint8Array(view.buffer, view.byteOffset, view.byteLength);
}

/** The words of a reply, after the call. */
class Reply {
  /** @param {Uint8Array} bytes */
  constructor(bytes) {
    this.view = new DataView(bytes.slice().buffer);
  }

  /** @param {number} at @returns {bigint} */
  unsigned(at) {
    return this.view.getBigUint64(WORD_BYTES * at, true);
  }

  /** @param {number} at @returns {bigint} */
  signed(at) {
    return this.view.getBigInt64(WORD_BYTES * at, true);
  }

  /** @param {number} at @returns {number} */
  double(at) {
    return this.view.getFloat64(WORD_BYTES * at, true);
  }

  /** @param {number} at @param {number} count @returns {bigint[]} */
  unsignedList(at, count) {
    return Array.from({ length: count }, (_, each) => this.unsigned(at + each));
  }

  /** @param {number} at @param {number} count @returns {bigint[]} */
  signedList(at, count) {
    return Array.from({ length: count }, (_, each) => this.signed(at + each));
  }

  /** @param {number} [at] @returns {Refusal} what every reply begins with */
  refusal(at = 0) {
    return { refusal: this.unsigned(at), place: this.unsigned(at + 1) };
  }

  /** @param {number} [at] @returns {Verdict} */
  verdict(at = 0) {
    return { ...this.refusal(at), n: this.unsigned(at + 2) };
  }

  /** @returns {LengthReply} */
  length() {
    return { ...this.refusal(), length: this.unsigned(2) };
  }

  /** @param {number} at @returns {Values} */
  values(at) {
    return {
      edition: this.unsigned(at + EDITION_AT),
      percentages: this.unsignedList(at + PERCENTAGES_AT, SEXES),
      year: this.unsigned(at + YEAR_AT),
      costRates: this.unsignedList(at + COST_RATES_AT, PRODUCT_GROUPS),
      curve: this.signedList(at + CURVE_AT, CURVE_RATES),
      mortality: this.unsignedList(at + MORTALITY_AT, MORTALITIES),
      firstClasses: this.unsignedList(at + FIRST_CLASSES_AT, CHAINS),
    };
  }
}

/** @param {Values<Whole>} values @returns {PassedStruct} */
function passedValues(values) {
  return {
    struct: [
      word(values.edition),
      ...numbers("percentages", values.percentages, SEXES),
      word(values.year),
      ...numbers("costRates", values.costRates, PRODUCT_GROUPS),
      ...numbers("curve", values.curve, CURVE_RATES, signedWord),
      ...numbers("mortality", values.mortality, MORTALITIES),
      ...numbers("firstClasses", values.firstClasses, CHAINS),
    ],
  };
}

/** The calls of one module. */
class Calls {
  /** @type {Module} */
  #module;

  /** @param {Module} module */
  constructor(module) {
    this.#module = module;
  }

  /**
   * One call; a reply has its place as the first argument.
   * @param {string} name
   * @param {number} words of the reply
   * @param {...Passed} passed
   * @returns {Reply}
   */
  #call(name, words, ...passed) {
    const memory = new CallMemory(this.#module);
    const reply = memory.reserve(WORD_BYTES * words);
    const given = passed.flatMap((each) => memory.words(each));
    this.#exported(name)(reply, ...given);
    memory.copyOut();
    return new Reply(memory.bytes(reply, WORD_BYTES * words));
  }

  /** @param {string} name @returns {(...given: (bigint | number)[]) => any} */
  #exported(name) {
    const found = /** @type {any} */ (this.#module)[`xaropinto_${name}`];
    if (!found) throw new TypeError(`the module has no ${name}: it is of another version`);
    return found;
  }

  /** @returns {bigint} the version of the library as one number: 20200 for 2.2.0 */
  version() {
    return BigInt.asUintN(64, this.#exported("version")());
  }

  /** @param {Uint8Array} book @returns {Verdict} whether the bytes are a valid book */
  check(book) {
    return this.#call("check", 3, bytesRead(book)).verdict();
  }

  /**
   * The liability of a product group in a setting; the table's first 200 numbers become its years.
   * @param {Uint8Array} book
   * @param {Whole} setting
   * @param {Whole} productGroup
   * @param {BigUint64Array} years
   * @returns {GroupReply}
   */
  group(book, setting, productGroup, years) {
    const reply = this.#call(
      "group", 4, bytesRead(book), word(setting), word(productGroup), numbersWritten(years),
    );
    return { ...reply.refusal(), liability: reply.signed(2), n: reply.unsigned(3) };
  }

  /** @param {Uint8Array} book @returns {TotalsReply} the eight totals, the four differences */
  totals(book) {
    const reply = this.#call("totals", 3 + SETTINGS + DIFFERENCES, bytesRead(book));
    return {
      ...reply.verdict(),
      totals: reply.signedList(3, SETTINGS),
      differences: reply.signedList(3 + SETTINGS, DIFFERENCES),
    };
  }

  /**
   * Write the listing to the start of a buffer; no listing is longer than 512 bytes.
   * @param {Uint8Array} book
   * @param {Uint8Array} out
   * @returns {LengthReply}
   */
  listing(book, out) {
    return this.#call("listing", 3, bytesRead(book), bytesWritten(out)).length();
  }

  /**
   * Where the record of this number, counted from 1, stands in the book.
   * @param {Uint8Array} book
   * @param {Whole} number
   * @returns {RecordReply}
   */
  record(book, number) {
    const reply = this.#call("record", 4, bytesRead(book), word(number));
    return { ...reply.refusal(), start: reply.unsigned(2), length: reply.unsigned(3) };
  }

  /**
   * The cost rates out of three years of accounts: three numbers, then three rows of five each.
   * @param {Row} expenses
   * @param {ArrayLike<Row>} stock
   * @param {ArrayLike<Row>} claims
   * @param {ArrayLike<Row>} premium
   * @returns {CostRates}
   */
  costRates(expenses, stock, claims, premium) {
    const reply = this.#call("cost_rates", 2 + PRODUCT_GROUPS, {
      struct: [
        ...numbers("expenses", expenses, YEARS),
        ...table("stock", stock, YEARS, PRODUCT_GROUPS),
        ...table("claims", claims, YEARS, PRODUCT_GROUPS),
        ...table("premium", premium, YEARS, PRODUCT_GROUPS),
      ],
    });
    return { ...reply.refusal(), rates: reply.unsignedList(2, PRODUCT_GROUPS) };
  }

  /**
   * Write the year report of a setting to the start of a buffer as long as `reportRoom` tells.
   * @param {Uint8Array} book
   * @param {Whole} setting
   * @param {Uint8Array} out
   * @returns {LengthReply}
   */
  report(book, setting, out) {
    return this.#call("report", 3, bytesRead(book), word(setting), bytesWritten(out)).length();
  }

  /**
   * The length of the report of this book and setting, to the byte.
   * @param {Uint8Array} book
   * @param {Whole} setting
   * @returns {LengthReply}
   */
  reportRoom(book, setting) {
    return this.#call("report_room", 3, bytesRead(book), word(setting)).length();
  }

  /**
   * Turn a book of age basis 2 into basis 1; the buffer is as long as the book.
   * @param {Uint8Array} book
   * @param {Uint8Array} out
   * @returns {Verdict}
   */
  convert(book, out) {
    return this.#call("convert", 3, bytesRead(book), bytesWritten(out)).verdict();
  }

  /**
   * Write the book of values and lists into a buffer.
   * @param {Values<Whole>} values
   * @param {BigUint64Array} counts of all chains end to end, in head order; so the other lists
   * @param {BigUint64Array} lapses
   * @param {BigUint64Array} premiums
   * @param {BigUint64Array} claims
   * @param {Uint8Array} out
   * @returns {LengthReply}
   */
  write(values, counts, lapses, premiums, claims, out) {
    const lists = [counts, lapses, premiums, claims].map((list) =>
      passedBuffer(list, BigUint64Array, false),
    );
    return this.#call("write", 3, passedValues(values), ...lists, bytesWritten(out)).length();
  }

  /**
   * The values of a book; its lists fill the four buffers. 1,694 numbers are always enough.
   * @param {Uint8Array} book
   * @param {BigUint64Array} counts
   * @param {BigUint64Array} lapses
   * @param {BigUint64Array} premiums
   * @param {BigUint64Array} claims
   * @returns {ReadReply}
   */
  read(book, counts, lapses, premiums, claims) {
    const lists = [counts, lapses, premiums, claims].map(numbersWritten);
    const reply = this.#call("read", 2 + VALUES_WORDS, bytesRead(book), ...lists);
    return { ...reply.refusal(), values: reply.values(2) };
  }

  /**
   * Two funds on the same tables: the verdict of each; their totals fill sixteen numbers.
   * @param {Uint8Array} tables
   * @param {Uint8Array} first
   * @param {Uint8Array} second
   * @param {BigInt64Array} totals
   * @returns {[Verdict, Verdict]}
   */
  funds(tables, first, second, totals) {
    const files = [tables, first, second].map(bytesRead);
    const reply = this.#call("funds", 6, ...files, passedBuffer(totals, BigInt64Array, true));
    return [reply.verdict(0), reply.verdict(3)];
  }

  /**
   * What is in force of one cell, year by year, in billionths of a contract, in fifty numbers.
   * @param {Uint8Array} book
   * @param {Whole} setting
   * @param {Whole} code
   * @param {Whole} sex
   * @param {Whole} ageClass
   * @param {BigUint64Array} years
   * @returns {Refusal}
   */
  inForce(book, setting, code, sex, ageClass, years) {
    const cell = [setting, code, sex, ageClass].map(word);
    return this.#call("in_force", 2, bytesRead(book), ...cell, numbersWritten(years)).refusal();
  }

  /**
   * Mean and coefficient of yearly claims, given by five whole numbers of centimes and two factors.
   * @param {Whole} lowest
   * @param {Whole} firstQuartile
   * @param {Whole} median
   * @param {Whole} thirdQuartile
   * @param {Whole} highest
   * @param {number} xi
   * @param {number} eta
   * @returns {Spread}
   */
  spread(lowest, firstQuartile, median, thirdQuartile, highest, xi, eta) {
    const summary = { struct: [lowest, firstQuartile, median, thirdQuartile, highest].map(word) };
    const reply = this.#call("spread", 5, summary, Number(xi), Number(eta));
    const level = reply.unsigned(2) !== 0n;
    return { ...reply.refusal(), level, mean: reply.double(3), coefficient: reply.double(4) };
  }

  /**
   * One standard deviation of the four factors of a book: mortality, lapse, costs and claims.
   * @param {Uint8Array} book
   * @param {Row} coefficients four, in millionths
   * @param {ArrayLike<Row>} correlation four rows of four, in thousandths
   * @returns {DeviationReply}
   */
  deviation(book, coefficients, correlation) {
    const model = {
      struct: [
        ...numbers("coefficients", coefficients, FACTORS),
        ...table("correlation", correlation, FACTORS, FACTORS, signedWord),
      ],
    };
    const reply = this.#call("deviation", 3, bytesRead(book), model);
    return { ...reply.refusal(), deviation: reply.unsigned(2) };
  }

  /**
   * Write the practice book of a start number into a buffer of 41,876 bytes.
   * @param {Whole} start any but 0
   * @param {Uint8Array} out
   * @returns {LengthReply}
   */
  practice(start, out) {
    return this.#call("practice", 3, word(start), bytesWritten(out)).length();
  }
}

/**
 * The calls of an instance of the module.
 * @param {WebAssembly.Exports} exports
 * @returns {Calls}
 */
export function openCalls(exports) {
  return new Calls(/** @type {any} */ (exports));
}
