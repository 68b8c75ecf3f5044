// Several files in one .zip file. They are not compressed, and all have the earliest day that the
// format knows: the same files give the same bytes.

const LOCAL_HEADER = 0x04034b50, CENTRAL_HEADER = 0x02014b50, END_OF_DIRECTORY = 0x06054b50;
const FORMAT_VERSION = 20;
// 1 January 1980.
const FIRST_DAY = 0x21;
const POLYNOMIAL = 0xedb88320;

/**
 * The checksum that the format has for each file (CRC-32).
 * @param {Uint8Array} held
 */
export function checksum(held) {
  let sum = 0xffffffff;
  for (const byte of held) {
    sum ^= byte;
    for (let bit = 0; bit < 8; bit++) sum = (sum >>> 1) ^ (sum & 1 ? POLYNOMIAL : 0);
  }
  return (sum ^ 0xffffffff) >>> 0;
}

/**
 * Numbers one behind the other, the lowest byte first.
 * @param {...[number, number]} fields each with its size in bytes
 */
function packed(...fields) {
  return fields.flatMap(([value, size]) =>
    Array.from({ length: size }, (_, at) => (value >>> (8 * at)) & 0xff));
}

/**
 * The .zip file of some files; their names are ASCII.
 * @param {Iterable<[string, Uint8Array]>} files
 */
export function zipOf(files) {
  /** @type {number[]} */
  const body = [];
  /** @type {number[]} */
  const directory = [];
  let count = 0;
  for (const [name, held] of files) {
    const letters = Array.from(name, (letter) => letter.charCodeAt(0));
    // Version, flags, method, time, day, checksum, both sizes, length of the name and of more.
    const shared = packed([FORMAT_VERSION, 2], [0, 2], [0, 2], [0, 2], [FIRST_DAY, 2],
      [checksum(held), 4], [held.length, 4], [held.length, 4], [letters.length, 2], [0, 2]);
    directory.push(...packed([CENTRAL_HEADER, 4], [FORMAT_VERSION, 2]), ...shared,
      // Length of the comment, disk, two kinds of attributes, where the file starts.
      ...packed([0, 2], [0, 2], [0, 2], [0, 4], [body.length, 4]), ...letters);
    body.push(...packed([LOCAL_HEADER, 4]), ...shared, ...letters);
    for (const byte of held) body.push(byte);
    count++;
  }
  const end = packed([END_OF_DIRECTORY, 4], [0, 2], [0, 2], [count, 2], [count, 2],
    [directory.length, 4], [body.length, 4], [0, 2]);
  return Uint8Array.from([...body, ...directory, ...end]);
}
