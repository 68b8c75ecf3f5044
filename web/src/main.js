// The web page: a book is dropped, chosen or made, and everything about it is computed here.
import { attempt, trouble } from "./actions.js";
import * as answers from "./answers.js";
import { showBook, showComparison } from "./book_views.js";
import { openCalls } from "./calls.js";
import { focusResult, part, report } from "./frame.js";
import { GivenError, bytesOf, chosenFiles, droppedFiles, tableFiles } from "./given_files.js";
import { quoted } from "./python_text.js";
import { showBadLine } from "./refused_views.js";
import { folderTables, readSheets } from "./sheets.js";
import { BadLineError } from "./tables.js";

/** @typedef {import("./view_parts.js").Book} Book */
/** @typedef {import("./given_files.js").Given} Given */

const MOST_START = 2n ** 64n;
/** The name of tables that come in no folder. */
const NO_FOLDER = "written";

/**
 * The book that is shown, if any, and how its view is drawn.
 * @type {{book: Book | null, draw: () => void}}
 */
const state = { book: null, draw: () => {} };

/** @type {import("./view_parts.js").Surroundings} */
const around = {
  imprint: () => ({ today: today(), insurer: input("insurer").value.trim() }),
  open: openBook,
  chooseOther: () => input("other").click(),
  remember: (draw) => { state.draw = draw; },
};

/**
 * A field of the page.
 * @param {string} id
 */
function input(id) {
  return /** @type {HTMLInputElement} */ (part(id));
}

/** The day by the clock and the time zone of this computer, as 2026-11-17. */
function today() {
  const now = new Date();
  return [now.getFullYear(), now.getMonth() + 1, now.getDate()]
    .map((number) => String(number).padStart(2, "0")).join("-");
}

/**
 * Show a book.
 * @param {Book} book
 */
function openBook(book) {
  state.book = book;
  showBook(book, around);
}

/**
 * Show what is given: a book, two books to compare, or the tables of a book.
 * @param {Given} given
 */
async function take(given) {
  const tables = tableFiles(given);
  if (tables.length) return openTables(given.folder || NO_FOLDER, tables);
  const books = await Promise.all(given.files.map(bytesOf));
  if (books.length === 1) return openBook(books[0]);
  if (books.length === 2) return compareBooks(books[0], books[1]);
  throw new GivenError(`one book, two books to compare or five CSV files can be opened at once; `
    + `${books.length} files were given`);
}

/**
 * Show the book of five tables, or what is wrong with them.
 * @param {string} name
 * @param {File[]} files
 */
async function openTables(name, files) {
  /** @type {{[name: string]: Uint8Array}} */
  const tables = {};
  for (const file of files) tables[file.name.toLowerCase()] = (await bytesOf(file)).held;
  try {
    const held = answers.write(readSheets(folderTables(tables)));
    openBook({ name: `${name}.book`, held, made: "Written, not saved yet: " });
  } catch (error) {
    if (!(error instanceof BadLineError)) throw error;
    state.book = null;
    showBadLine(name, error, around);
  }
}

/**
 * Compare two books, that of the earlier SST year as last year's; of one year in this order.
 * @param {Book} one
 * @param {Book} other
 */
function compareBooks(one, other) {
  const [first, second] = [one, other].map(({ name, held }) => {
    try {
      return answers.read(held).year;
    } catch (error) {
      if (!(error instanceof answers.RefusedError)) throw error;
      throw new GivenError(`${name}: ${error.message}`);
    }
  });
  const [last, current] = second < first ? [other, one] : [one, other];
  state.book = current;
  showComparison(last, current, around);
  focusResult();
}

/** The practice book of the start number that is typed. */
function makePractice() {
  const word = input("start-number").value.trim();
  if (!/^[0-9]+$/.test(word) || BigInt(word) >= MOST_START) {
    throw new GivenError(`${quoted(word)} is not a whole number of at most 64 bits`);
  }
  const start = BigInt(word), held = answers.practice(start);
  openBook({ name: `practice-${start}.book`, held, made: "Made, not saved yet: " });
}

/**
 * Take files from a chooser, which then forgets them: the same may be chosen again.
 * @param {string} id
 * @param {(given: Given) => Promise<void>} use
 */
function onChoice(id, use) {
  const chooser = input(id);
  chooser.addEventListener("change", () => attempt(async () => {
    const given = chosenFiles(chooser);
    chooser.value = "";
    if (given.files.length) await use(given);
  }));
}

/** Files may be dropped anywhere on the page. */
function onDrop() {
  const mark = (/** @type {boolean} */ on) => document.body.classList.toggle("dropping", on);
  document.addEventListener("dragover", (event) => {
    event.preventDefault();
    mark(true);
  });
  document.addEventListener("dragleave", (event) => mark(event.relatedTarget !== null));
  document.addEventListener("drop", (event) => {
    event.preventDefault();
    mark(false);
    const { dataTransfer } = event;
    if (dataTransfer) attempt(async () => take(await droppedFiles(dataTransfer)));
  });
}

/** Connect buttons, fields and drops with what they do, and enable them. */
function connect() {
  part("choose").addEventListener("click", () => input("files").click());
  part("choose-folder").addEventListener("click", () => input("folder").click());
  onChoice("files", take);
  onChoice("folder", take);
  onChoice("other", async ({ files }) => {
    if (state.book) compareBooks(await bytesOf(files[0]), state.book);
  });
  part("practice").addEventListener("submit", (event) => {
    event.preventDefault();
    attempt(makePractice);
  });
  input("insurer").addEventListener("change", () => attempt(() => state.draw()));
  onDrop();
  document.querySelectorAll("button").forEach((each) => { each.disabled = false; });
}

/**
 * The bytes of the proved code.
 * @param {string} module compressed, in base64
 */
function unpacked(module) {
  const packed = Uint8Array.from(atob(module), (letter) => letter.charCodeAt(0));
  // The type checker of Debian's packages does not know this class yet.
  const { DecompressionStream } = /** @type {any} */ (globalThis);
  const bytes = new Blob([packed]).stream().pipeThrough(new DecompressionStream("deflate"));
  return new Response(bytes).arrayBuffer();
}

/**
 * Start the page with the proved code.
 * @param {string} module as `unpacked` takes it
 */
export async function openPage(module) {
  window.addEventListener("error", (event) => report(trouble(event.error), "bad"));
  window.addEventListener("unhandledrejection", (event) => report(trouble(event.reason), "bad"));
  try {
    const { instance } = await WebAssembly.instantiate(await unpacked(module), {});
    answers.useCalls(openCalls(instance.exports));
    connect();
    report("No book is open.");
  } catch (error) {
    report(`the page cannot start, perhaps because this browser is too old: ${error}`, "bad");
  }
}
