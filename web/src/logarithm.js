// The natural logarithm, rounded correctly. Math.log differs from browser to browser in the last
// digit, and so does a sum of them.
//
// A number is held to twice the digits as a pair: a double, and what it leaves out.

/** @typedef {[number, number]} Pair */

// Splits a double into halves of 26 bits.
const SPLITTER = 2 ** 27 + 1;
/** @type {Pair} */
const LOG_2 = [Math.LN2, 2.3190468138462996e-17];
// Of the series below; what is left of it is less than a pair holds.
const TERMS = 23;

/**
 * A sum of two doubles.
 * @param {number} a
 * @param {number} b
 * @returns {Pair}
 */
function sumOf(a, b) {
  const held = a + b, back = held - a;
  return [held, a - (held - back) + (b - back)];
}

/**
 * A product of two doubles.
 * @param {number} a
 * @param {number} b
 * @returns {Pair}
 */
function productOf(a, b) {
  const held = a * b, [aHigh, aLow] = halves(a), [bHigh, bLow] = halves(b);
  return [held, aLow * bLow - (held - aHigh * bHigh - aLow * bHigh - aHigh * bLow)];
}

/**
 * A double as two of half the digits.
 * @param {number} a
 * @returns {Pair}
 */
function halves(a) {
  const scaled = SPLITTER * a, high = scaled - (scaled - a);
  return [high, a - high];
}

/**
 * A sum of pairs.
 * @param {Pair} a
 * @param {Pair} b
 */
function plus(a, b) {
  const [high, low] = sumOf(a[0], b[0]), [more, least] = sumOf(a[1], b[1]);
  const [held, rest] = sumOf(high, low + more);
  return sumOf(held, rest + least);
}

/**
 * A product of pairs.
 * @param {Pair} a
 * @param {Pair} b
 */
function times(a, b) {
  const [high, low] = productOf(a[0], b[0]);
  return sumOf(high, low + (a[0] * b[1] + a[1] * b[0]));
}

/**
 * A quotient of pairs.
 * @param {Pair} a
 * @param {Pair} b
 */
function over(a, b) {
  const first = a[0] / b[0];
  const rest = plus(a, times(b, [-first, 0])), second = rest[0] / b[0];
  const least = plus(rest, times(b, [-second, 0]));
  return plus(sumOf(first, second), [least[0] / b[0], 0]);
}

// 1, 1/3, 1/5 and so on.
const INVERSES = Array.from({ length: TERMS }, (_, at) => over([1, 0], [2 * at + 1, 0]));

/**
 * The natural logarithm of a number from 1 on.
 *
 * With m from 1/sqrt(2) to sqrt(2) and s = (m - 1) / (m + 1) it is k log 2 + 2 (s + s^3/3 + s^5/5 +
 * ...) for m 2^k.
 * @param {number} number
 */
export function log(number) {
  let m = number, k = 0;
  for (; m > Math.SQRT2; m /= 2) k += 1;
  const s = over([m - 1, 0], sumOf(m, 1)), square = times(s, s);
  const series = INVERSES.reduceRight((held, each) => plus(times(held, square), each),
    /** @type {Pair} */ ([0, 0]));
  return plus(times([2 * s[0], 2 * s[1]], series), times([k, 0], LOG_2))[0];
}
