// SHA-256 as FIPS 180-4 has it. That of the browser is asynchronous, and not there in every page
// that is opened from a file.

const BLOCK_BYTES = 64, LENGTH_BYTES = 8;

/**
 * The first primes.
 * @param {number} count
 */
function primes(count) {
  /** @type {number[]} */
  const found = [];
  for (let each = 2; found.length < count; each++) {
    if (found.every((prime) => each % prime)) found.push(each);
  }
  return found;
}

/**
 * The first 32 bits of the fractional part of a root: the greatest x with x^power at most n, in
 * whole numbers.
 * @param {number} n
 * @param {bigint} power
 */
function rootBits(n, power) {
  const due = BigInt(n) << (32n * power);
  let root = 0n;
  for (let bit = 1n << 40n; bit; bit >>= 1n) {
    if ((root | bit) ** power <= due) root |= bit;
  }
  return Number(root & 0xffffffffn);
}

const START = Uint32Array.from(primes(8), (prime) => rootBits(prime, 2n));
const ROUNDS = Uint32Array.from(primes(64), (prime) => rootBits(prime, 3n));

/**
 * A word turned to the right.
 * @param {number} word
 * @param {number} bits
 */
function turned(word, bits) {
  return (word >>> bits) | (word << (32 - bits));
}

/**
 * The bytes with a one behind them, zeros and their length in bits.
 * @param {Uint8Array} bytes
 */
function padded(bytes) {
  const blocks = Math.ceil((bytes.length + 1 + LENGTH_BYTES) / BLOCK_BYTES);
  const held = new Uint8Array(BLOCK_BYTES * blocks);
  held.set(bytes);
  held[bytes.length] = 0x80;
  new DataView(held.buffer).setBigUint64(held.length - LENGTH_BYTES, 8n * BigInt(bytes.length));
  return new DataView(held.buffer);
}

/**
 * The 64 words of a block.
 * @param {DataView} held
 * @param {number} start
 */
function scheduled(held, start) {
  const words = new Uint32Array(ROUNDS.length);
  for (let at = 0; at < words.length; at++) {
    if (at < 16) {
      words[at] = held.getUint32(start + 4 * at);
      continue;
    }
    const one = words[at - 15], two = words[at - 2];
    words[at] = words[at - 16] + (turned(one, 7) ^ turned(one, 18) ^ (one >>> 3))
      + words[at - 7] + (turned(two, 17) ^ turned(two, 19) ^ (two >>> 10));
  }
  return words;
}

/**
 * Take a block's words into the state.
 * @param {Uint32Array} state
 * @param {Uint32Array} words
 */
function mixIn(state, words) {
  let [a, b, c, d, e, f, g, h] = state;
  for (let at = 0; at < words.length; at++) {
    const first = (h + (turned(e, 6) ^ turned(e, 11) ^ turned(e, 25)) + ((e & f) ^ (~e & g))
      + ROUNDS[at] + words[at]) | 0;
    const second = (turned(a, 2) ^ turned(a, 13) ^ turned(a, 22)) + ((a & b) ^ (a & c) ^ (b & c));
    [h, g, f, e, d, c, b, a] = [g, f, e, (d + first) | 0, c, b, a, (first + second) | 0];
  }
  [a, b, c, d, e, f, g, h].forEach((word, at) => { state[at] += word; });
}

/**
 * The SHA-256 in hexadecimal digits.
 * @param {Uint8Array} bytes
 */
export function sha256(bytes) {
  const state = START.slice(), held = padded(bytes);
  for (let start = 0; start < held.byteLength; start += BLOCK_BYTES) {
    mixIn(state, scheduled(held, start));
  }
  return Array.from(state, (word) => word.toString(16).padStart(8, "0")).join("");
}
