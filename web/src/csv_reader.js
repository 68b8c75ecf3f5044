// Lines of separated values as Python's csv module reads them: quotes around a cell, two for one
// within it, and nothing but a separator behind the second.

const QUOTE = '"', LINE_END = "";
/** Python's csv module refuses a longer cell. */
const MOST_LETTERS = 131_072;
const LINES = /[^\r\n]*(?:\r\n|\r|\n)|[^\r\n]+$/g;

/** Why a text is no lines of cells, and how many lines of it were read. */
export class CsvError extends Error {
  name = "CsvError";

  /** @param {string} message @param {number} line */
  constructor(message, line) {
    super(message);
    this.line = line;
  }
}

/** Where the reader stands: before a line, before a cell, in one, in quotes, behind a quote there,
 * and behind the end of a line. */
const Place = Object.freeze({ LINE: 0, CELL: 1, IN_CELL: 2, IN_QUOTES: 3, QUOTE: 4, LINE_END: 5 });

/** The cells of one line, which goes on over several lines of text where these are in quotes. */
class LineReader {
  /** @param {string} separator @param {number} line */
  constructor(separator, line) {
    this.separator = separator;
    this.line = line;
    this.place = Place.LINE;
    /** @type {string[]} */
    this.cells = [];
    /** @type {string[]} */
    this.letters = [];
  }

  /**
   * One more letter, or the end of the text's line.
   * @param {string} letter
   */
  take(letter) {
    const isEnd = letter === LINE_END || letter === "\r" || letter === "\n";
    if (this.place === Place.IN_QUOTES) {
      if (letter === QUOTE) this.place = Place.QUOTE;
      else if (letter !== LINE_END) this.add(letter);
    } else if (isEnd) {
      if (this.place !== Place.LINE && this.place !== Place.LINE_END) this.endCell();
      this.place = letter === LINE_END ? Place.LINE : Place.LINE_END;
    } else if (letter === this.separator) {
      this.endCell();
      this.place = Place.CELL;
    } else if (this.place === Place.QUOTE) {
      if (letter !== QUOTE) this.stop(`'${this.separator}' expected after '${QUOTE}'`);
      this.add(letter);
      this.place = Place.IN_QUOTES;
    } else if (letter === QUOTE && this.place !== Place.IN_CELL) {
      this.place = Place.IN_QUOTES;
    } else {
      this.add(letter);
      this.place = Place.IN_CELL;
    }
  }

  /** @param {string} letter */
  add(letter) {
    if (this.letters.length >= MOST_LETTERS) {
      this.stop(`field larger than field limit (${MOST_LETTERS})`);
    }
    this.letters.push(letter);
  }

  endCell() {
    this.cells.push(this.letters.join(""));
    this.letters = [];
  }

  /** @param {string} words @returns {never} */
  stop(words) {
    throw new CsvError(words, this.line);
  }
}

/**
 * The cells of each line, with the number of its last line of text.
 * @param {string} text
 * @param {string} separator
 * @returns {{line: number, cells: string[]}[]}
 */
export function csvLines(text, separator) {
  const found = [];
  let reader = new LineReader(separator, 0);
  for (const [at, line] of (text.match(LINES) ?? []).entries()) {
    reader.line = at + 1;
    for (const letter of line) reader.take(letter);
    reader.take(LINE_END);
    if (reader.place === Place.LINE) {
      found.push({ line: reader.line, cells: reader.cells });
      reader = new LineReader(separator, reader.line);
    }
  }
  if (reader.place === Place.IN_QUOTES) reader.stop("unexpected end of data");
  return found;
}
