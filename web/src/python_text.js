// What Python does with numbers and texts by itself, where JavaScript does it otherwise: the words
// of the page are those of the Python package letter for letter.

/** Characters that Python's `repr` writes as they are: no controls, no separators but the space. */
const UNPRINTABLE = /^(?! )[\p{C}\p{Z}]$/u;
const ESCAPES = new Map([["\\", "\\\\"], ["\n", "\\n"], ["\r", "\\r"], ["\t", "\\t"]]);
/** What Python's `strip` takes away; JavaScript's `trim` takes other characters. */
const SPACE =
  "[\\t-\\r\\x1c-\\x20\\x85\\xa0\\u1680\\u2000-\\u200a\\u2028\\u2029\\u202f\\u205f\\u3000]";
const OUTER_SPACE = new RegExp(`^${SPACE}+|${SPACE}+$`, "gu");
/** What folds to letters of ASCII beside what `toLowerCase` turns into them. */
const FOLDED = new Map([
  ["\u017f", "s"], ["\xdf", "ss"], ["\u1e9e", "ss"], ["\ufb00", "ff"], ["\ufb01", "fi"],
  ["\ufb02", "fl"], ["\ufb03", "ffi"], ["\ufb04", "ffl"], ["\ufb05", "st"], ["\ufb06", "st"],
]);
/** The bits of a double's fraction, and the exponent of its last bit where the stored one is 0. */
const FRACTION_BITS = 52n, LEAST_EXPONENT = -1074;
const EXACT = 2n ** 53n;

/**
 * A whole number with a comma at each thousand, as `f"{number:,}"`.
 * @param {number | bigint} number
 * @returns {string}
 */
export function grouped(number) {
  return withCommas(String(number));
}

/**
 * The digits before the point with a comma at each thousand.
 * @param {string} digits
 * @returns {string}
 */
function withCommas(digits) {
  return digits.replace(/(?<=^-?\d+)(?=(?:\d{3})+(?:\.|$))/g, ",");
}

/**
 * A number with so many decimals, as `f"{number:.2f}"`: its exact value rounded, halves to even.
 * @param {number | bigint} number
 * @param {number} decimals
 * @returns {string}
 */
export function fixed(number, decimals) {
  const view = new DataView(new ArrayBuffer(8));
  view.setFloat64(0, Number(number));
  const bits = view.getBigUint64(0);
  const stored = Number((bits >> FRACTION_BITS) & 0x7ffn);
  const fraction = bits & ((1n << FRACTION_BITS) - 1n);
  const mantissa = stored ? fraction | (1n << FRACTION_BITS) : fraction;
  const exponent = LEAST_EXPONENT + Math.max(stored, 1) - 1;
  const scaled = mantissa * 10n ** BigInt(decimals);
  const whole = exponent >= 0 ? scaled << BigInt(exponent) : halved(scaled, BigInt(-exponent));
  const digits = String(whole).padStart(decimals + 1, "0");
  const sign = bits >> 63n ? "-" : "";
  const point = digits.length - decimals;
  return sign + digits.slice(0, point) + (decimals ? `.${digits.slice(point)}` : "");
}

/**
 * A number divided by 2 so many times, rounded, halves to even.
 * @param {bigint} number
 * @param {bigint} times
 * @returns {bigint}
 */
function halved(number, times) {
  const whole = number >> times, rest = number - (whole << times), half = 1n << (times - 1n);
  return rest > half || (rest === half && whole & 1n) ? whole + 1n : whole;
}

/**
 * The same with a comma at each thousand, as `f"{number:,.2f}"`.
 * @param {number | bigint} number
 * @param {number} decimals
 * @returns {string}
 */
export function fixedGrouped(number, decimals) {
  return withCommas(fixed(number, decimals));
}

/**
 * The double next to the quotient of two whole numbers, as Python's `a / b`.
 * @param {number | bigint} dividend
 * @param {number | bigint} divisor
 * @returns {number}
 */
export function quotient(dividend, divisor) {
  const a = BigInt(dividend), b = BigInt(divisor);
  if (a < 0n) return -quotient(-a, b);
  if (b < 0n) return -quotient(a, -b);
  if (a <= EXACT && b <= EXACT) return Number(a) / Number(b);
  // Two bits more than a double has, and a last one that says whether anything is left.
  const shift = 55 + b.toString(2).length - a.toString(2).length;
  const above = shift > 0 ? a << BigInt(shift) : a, below = shift > 0 ? b : b << BigInt(-shift);
  const whole = (above / below) * 2n + (above % below ? 1n : 0n);
  return Number(whole) * 2 ** -(shift + 1);
}

/**
 * A text in quotes as `repr` writes it. Characters that are newer than Python's table of them may
 * differ.
 * @param {string} text
 * @returns {string}
 */
export function quoted(text) {
  const quote = text.includes("'") && !text.includes('"') ? '"' : "'";
  return quote + Array.from(text, (letter) => escaped(letter, quote)).join("") + quote;
}

/**
 * A character as it stands between quotes.
 * @param {string} letter
 * @param {string} quote
 * @returns {string}
 */
function escaped(letter, quote) {
  const known = letter === quote ? `\\${quote}` : ESCAPES.get(letter);
  if (known || !UNPRINTABLE.test(letter)) return known ?? letter;
  const code = /** @type {number} */ (letter.codePointAt(0));
  if (code < 0x100) return `\\x${hex(code, 2)}`;
  return code < 0x10000 ? `\\u${hex(code, 4)}` : `\\U${hex(code, 8)}`;
}

/**
 * A byte in quotes as `repr` writes bytes; nothing between them where there is none.
 * @param {number | undefined} byte
 * @returns {string}
 */
export function quotedByte(byte) {
  if (byte === undefined) return "b''";
  const letter = String.fromCharCode(byte);
  if (byte >= 0x80) return `b'\\x${hex(byte, 2)}'`;
  return `b${quoted(letter)}`;
}

/**
 * A number in so many hexadecimal digits.
 * @param {number} number
 * @param {number} digits
 * @returns {string}
 */
export function hex(number, digits) {
  return number.toString(16).padStart(digits, "0");
}

/**
 * A text without the white space at its ends, as `strip` leaves it.
 * @param {string} text
 * @returns {string}
 */
export function stripped(text) {
  return text.replace(OUTER_SPACE, "");
}

/**
 * A text folded for a comparison with words of ASCII, for which it is what `casefold` gives.
 * @param {string} text
 * @returns {string}
 */
export function folded(text) {
  return Array.from(text.toLowerCase(), (letter) => FOLDED.get(letter) ?? letter).join("");
}
