/**
 * The other side of tests/targets/bridge.py: answers calls by web/src/calls.js over a module.
 *
 *     node tests/web/call_server.mjs MODULE.wasm
 */
import fs from "node:fs";
import { openCalls } from "../../web/src/calls.js";

const STANDARD_INPUT = 0;
const STANDARD_OUTPUT = 1;
const WORD_BYTES = 8;
const ELEMENTS = { B: Uint8Array, Q: BigUint64Array, q: BigInt64Array };
const [YEARS, PRODUCT_GROUPS, FACTORS] = [3, 5, 4];

/** The next bytes of standard input; where it ends, this process does too. */
function take(size) {
  const taken = Buffer.alloc(size);
  for (let at = 0; at < size; ) {
    const count = fs.readSync(STANDARD_INPUT, taken, at, size - at, null);
    if (count === 0) process.exit(0);
    at += count;
  }
  return taken;
}

function put(bytes) {
  for (let at = 0; at < bytes.length; ) at += fs.writeSync(STANDARD_OUTPUT, bytes, at);
}

/** Words in turn, as calls.js takes the fields of a struct. */
class Words {
  constructor(words) {
    this.words = words;
    this.at = 0;
  }

  next(count) {
    return this.words.slice(this.at, (this.at += count));
  }

  one() {
    return this.next(1)[0];
  }

  signed(count) {
    return this.next(count).map((each) => BigInt.asIntN(64, each));
  }

  rows(count, length, taken = (each) => this.next(each)) {
    return Array.from({ length: count }, () => taken(length));
  }
}

/** By the call's name: what its struct is among the arguments of calls.js. */
const STRUCTS = {
  cost_rates: (words) => [
    words.next(YEARS),
    ...[1, 2, 3].map(() => words.rows(YEARS, PRODUCT_GROUPS)),
  ],
  write: (words) => [
    {
      edition: words.one(),
      percentages: words.next(2),
      year: words.one(),
      costRates: words.next(PRODUCT_GROUPS),
      curve: words.signed(49),
      mortality: words.next(242),
      firstClasses: words.next(14),
    },
  ],
  spread: (words) => words.next(5),
  deviation: (words) => [
    words.next(FACTORS),
    words.rows(FACTORS, FACTORS, (count) => words.signed(count)),
  ],
};

/** A request: the call's name, the bytes of its reply, its arguments, and the buffers of these. */
function requested(bytes) {
  const count = bytes[5];
  let at = 6 + bytes[0];
  const name = bytes.toString("latin1", 6, at).replace(/^xaropinto_/, "");
  const passed = [];
  const buffers = [];
  for (let number = 0; number < count; number++) {
    const kind = String.fromCharCode(bytes[at++]);
    if (kind === "W" || kind === "D") {
      passed.push(kind === "W" ? bytes.readBigUInt64LE(at) : bytes.readDoubleLE(at));
      at += WORD_BYTES;
      continue;
    }
    const held = Uint8Array.from(bytes.subarray(at + 4, at + 4 + bytes.readUInt32LE(at)));
    at += 4 + held.length;
    if (kind === "S") {
      passed.push(...STRUCTS[name](new Words(Array.from(new BigUint64Array(held.buffer)))));
    } else {
      buffers.push(held);
      passed.push(new ELEMENTS[kind](held.buffer));
      // Its length is the next argument, which calls.js takes from the buffer.
      if (bytes.readBigUInt64LE(at + 1) !== BigInt(passed.at(-1).length)) process.exit(2);
      at += 1 + WORD_BYTES;
      number++;
    }
  }
  return { name, size: bytes.readUInt32LE(1), passed, buffers };
}

/** The words of a reply, field by field, as the struct of the header has them. */
function* words(reply) {
  if (typeof reply === "bigint") yield BigInt.asUintN(64, reply);
  else if (typeof reply === "boolean") yield BigInt(reply);
  else if (typeof reply === "number") {
    yield new BigUint64Array(new Float64Array([reply]).buffer)[0];
  } else for (const each of Object.values(reply)) yield* words(each);
}

const module = new WebAssembly.Module(fs.readFileSync(process.argv[2]));
const calls = openCalls(new WebAssembly.Instance(module, {}).exports);
for (;;) {
  const { name, size, passed, buffers } = requested(take(take(4).readUInt32LE()));
  const method = name.replace(/_(.)/g, (_, letter) => letter.toUpperCase());
  const reply = new Uint8Array(BigUint64Array.from(words(calls[method](...passed))).buffer);
  if (reply.length !== size) process.exit(3);
  put(Buffer.concat([reply, ...buffers]));
}
