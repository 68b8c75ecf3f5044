/**
 * What web/src/calls.js itself does with arguments, memory and traps: a line for each test.
 *
 *     node tests/web/call_arguments.mjs MODULE.wasm SMALL_STACK.wasm SAMPLES
 */
import assert from "node:assert/strict";
import fs from "node:fs";
import { openCalls } from "../../web/src/calls.js";

const [modulePath, smallStackPath, samples] = process.argv.slice(2);

function exportsOf(path) {
  return new WebAssembly.Instance(new WebAssembly.Module(fs.readFileSync(path)), {}).exports;
}

const calls = openCalls(exportsOf(modulePath));
const [book, oneRecord] = ["full", "one_record"].map(
  (name) => new Uint8Array(fs.readFileSync(`${samples}/${name}.book`)),
);
const MARK = 7;
const TABLE_NUMBERS = 200;
const MEGABYTES = 1 << 20;
const years = () => new BigUint64Array(TABLE_NUMBERS);
const lists = () => [1, 2, 3, 4].map(() => new BigUint64Array(1694));

const TESTS = {
  "a number that is not whole is a RangeError"() {
    assert.throws(() => calls.record(book, 1.5), RangeError);
  },
  "a number above 64 bits is a RangeError"() {
    assert.throws(() => calls.record(book, 2n ** 64n), RangeError);
  },
  "a number below 0 is a RangeError"() {
    assert.throws(() => calls.group(book, -1, 1, years()), RangeError);
  },
  "the largest number of 64 bits is passed whole"() {
    assert.equal(calls.record(book, 2n ** 64n - 1n).refusal, 9n);
  },
  "a signed number beyond 64 bits is a RangeError"() {
    const { values } = calls.read(book, ...lists());
    const curve = [...values.curve.slice(1), 2n ** 63n];
    assert.throws(() => calls.write({ ...values, curve }, ...lists(), book.slice()), RangeError);
  },
  "signed numbers are passed with their sign"() {
    const { values } = calls.read(book, ...lists());
    const curve = [...values.curve.slice(1), -10001];
    const firstClasses = Array(14).fill(121);
    const empty = [1, 2, 3, 4].map(() => new BigUint64Array(0));
    const written = (changed) =>
      calls.write({ ...values, firstClasses, ...changed }, ...empty, new Uint8Array(1220)).refusal;
    assert.equal(written({ curve }), 7n);
    assert.equal(written({ curve: [...values.curve.slice(1), -10000] }), 0n);
  },
  "what is negative in a reply has its sign"() {
    assert.equal(calls.group(oneRecord, 0, 2, years()).liability, -5000000n);
    assert.equal(calls.totals(oneRecord).totals[0], -5000000n);
    assert.equal(calls.totals(book).differences[0], -31455909204664n);
    assert.equal(calls.read(book, ...lists()).values.curve.some((rate) => rate > 2n ** 32n), false);
  },
  "a row that is too short is a RangeError"() {
    const rows = [1, 2, 3].map(() => [1, 2, 3, 4, 5]);
    assert.throws(() => calls.costRates([1, 2], rows, rows, rows), RangeError);
    assert.throws(() => calls.costRates([1, 2, 3], rows.slice(1), rows, rows), RangeError);
    assert.throws(() => calls.deviation(book, [1, 2, 3, 4], [[1]]), RangeError);
  },
  "a buffer of another type is a TypeError"() {
    assert.throws(() => calls.check([...book]), TypeError);
    assert.throws(() => calls.group(book, 0, 1, new BigInt64Array(TABLE_NUMBERS)), TypeError);
    assert.throws(() => calls.funds(book, book, book, new BigUint64Array(16)), TypeError);
    assert.throws(() => calls.listing(book, new Uint16Array(512)), TypeError);
  },
  "a Number and a BigInt are the same"() {
    const [one, other] = [years(), years()];
    assert.deepEqual(calls.group(book, 3, 1, one), calls.group(book, 3n, 1n, other));
    assert.deepEqual(one, other);
  },
  "a part of a buffer is written, and nothing beside it"() {
    const memory = new Uint8Array(600).fill(MARK);
    const { length } = calls.listing(book, memory.subarray(50, 562));
    const end = 50 + Number(length);
    assert.equal(memory.subarray(0, 50).every((each) => each === MARK), true);
    assert.equal(memory.subarray(end).every((each) => each === MARK), true);
    assert.match(Buffer.from(memory.subarray(50, end)).toString(), /^(\d -?\d+ \d+\n){8}$/);
  },
  "a refused call leaves its buffer as it was"() {
    const out = new Uint8Array(4).fill(MARK);
    assert.equal(calls.listing(book, out).refusal, 20n);
    assert.deepEqual(out, new Uint8Array(4).fill(MARK));
  },
  "a table in the book's own memory does no harm"() {
    const apart = years();
    const due = calls.group(book, 0, 1, apart);
    const shared = book.slice();
    const inside = new BigUint64Array(shared.buffer, 0, TABLE_NUMBERS);
    assert.deepEqual(calls.group(shared, 0, 1, inside), due);
    assert.deepEqual(inside, apart);
  },
  "the memory grows as it must"() {
    const long = new Uint8Array(5 * MEGABYTES);
    long.set(book);
    const out = new Uint8Array(7 * MEGABYTES).fill(MARK);
    assert.equal(calls.check(long).refusal, 5n);
    assert.equal(calls.listing(book, out).refusal, 0n);
    assert.equal(out.at(-1), MARK);
  },
  "no buffer at all is passed"() {
    assert.equal(calls.check(new Uint8Array(0)).refusal, 1n);
    assert.equal(calls.group(book, 0, 1, new BigUint64Array(0)).refusal, 16n);
  },
  "a trap reaches the caller"() {
    const small = openCalls(exportsOf(smallStackPath));
    assert.equal(small.version(), calls.version());
    assert.throws(() => small.totals(book), WebAssembly.RuntimeError);
  },
  "a module without a call is another version"() {
    const { memory, __heap_base } = exportsOf(modulePath);
    assert.throws(() => openCalls({ memory, __heap_base }).check(book), /another version/);
  },
};

for (const [name, test] of Object.entries(TESTS)) {
  try {
    test();
    console.log(`ok ${name}`);
  } catch (error) {
    console.log(`FAILED ${name}: ${error.message.replaceAll("\n", " ")}`);
  }
}
