// What is dropped or chosen: one book, two books to compare, or the CSV files of a book.
import { CLI_FILES } from "../../target/web/tables.js";
import { grouped } from "./python_text.js";
import { KINDS, csvFile } from "./sheets.js";

/**
 * A file by its name, with its bytes.
 * @typedef {{name: string, held: Uint8Array}} NamedBytes
 */
/**
 * What was given; the name of the folder is empty where there was none.
 * @typedef {{folder: string, files: File[]}} Given
 */

/** What is given cannot be used, in words. */
export class GivenError extends Error {
  name = "GivenError";
}

/**
 * Is this the name of a table?
 * @param {string} name
 */
const isTable = (name) => /\.csv$/i.test(name);

/**
 * The files of a drop, those of a folder included. A browser forgets what was dropped as soon as
 * the event has ended: what leads to a folder is taken before anything is awaited.
 * @param {DataTransfer} dropped
 * @returns {Promise<Given>}
 */
export async function droppedFiles(dropped) {
  const files = Array.from(dropped.files), items = Array.from(dropped.items);
  const item = items.find((each) => each.webkitGetAsEntry?.()?.isDirectory);
  if (!item) return { folder: "", files };
  if (items.length > 1) throw new GivenError("drop one folder, and nothing beside it");
  const entry = /** @type {FileSystemDirectoryEntry} */ (item.webkitGetAsEntry());
  // Chromium reads no entries in a page that is opened from a file; other browsers have no handles.
  const handle = /** @type {any} */ (item).getAsFileSystemHandle?.();
  try {
    const inside = handle ? await filesBelow(await handle) : await filesIn(entry);
    return { folder: entry.name, files: inside };
  } catch (error) {
    throw new GivenError(`${entry.name}: this browser does not read a dropped folder; drop the `
      + "five files themselves, or choose the folder");
  }
}

/**
 * The files of a folder, none of the folders in it.
 * @param {any} handle
 */
async function filesBelow(handle) {
  /** @type {File[]} */
  const files = [];
  for await (const each of handle.values()) {
    if (each.kind === "file") files.push(await each.getFile());
  }
  return files;
}

/**
 * The same by an entry. A reader gives some at a time, at last none.
 * @param {FileSystemDirectoryEntry} folder
 */
async function filesIn(folder) {
  const reader = folder.createReader();
  /** @type {File[]} */
  const files = [];
  for (;;) {
    /** @type {FileSystemEntry[]} */
    const some = await new Promise((done, fail) => reader.readEntries(done, fail));
    if (!some.length) return files;
    for (const entry of some.filter((each) => each.isFile)) {
      const held = /** @type {FileSystemFileEntry} */ (entry);
      files.push(await new Promise((done, fail) => held.file(done, fail)));
    }
  }
}

/**
 * The files of a chooser; of a folder those that are not in folders below it.
 * @param {HTMLInputElement} chooser
 * @returns {Given}
 */
export function chosenFiles(chooser) {
  const files = Array.from(chooser.files ?? []);
  if (!chooser.webkitdirectory) return { folder: "", files };
  const folder = files.length ? files[0].webkitRelativePath.split("/")[0] : "";
  return { folder, files: files.filter((file) => file.webkitRelativePath.split("/").length < 3) };
}

/**
 * The bytes of a file, whatever its length up to one that no book has.
 * @param {File} file
 * @returns {Promise<NamedBytes>}
 */
export async function bytesOf(file) {
  if (file.size > CLI_FILES.MOST_BYTES) {
    throw new GivenError(`${file.name}: longer than ${grouped(CLI_FILES.MOST_BYTES)} bytes; `
      + "no book is");
  }
  try {
    return { name: file.name, held: new Uint8Array(await file.arrayBuffer()) };
  } catch (error) {
    const { message } = /** @type {Error} */ (error);
    throw new GivenError(`${file.name}: it cannot be read: ${message}`);
  }
}

/**
 * The files that are the tables of a book; none where books are given.
 * @param {Given} given
 */
export function tableFiles(given) {
  const tables = given.files.filter((file) => isTable(file.name));
  if (!given.folder && tables.length && tables.length < given.files.length) {
    throw new GivenError("books and CSV files are given together: drop one or the other");
  }
  if (!given.folder && !tables.length) return [];
  const names = KINDS.map(csvFile);
  const found = new Map(tables.map((file) => [file.name.toLowerCase(), file]));
  const missing = names.filter((name) => !found.has(name));
  if (missing.length) {
    throw new GivenError(`a book's tables are ${names.join(", ")}; missing: ${missing.join(", ")}`);
  }
  return names.map((name) => /** @type {File} */ (found.get(name)));
}
