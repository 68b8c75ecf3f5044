// What is saved: files that the browser puts where it puts downloads, and their names.

// A browser may still be writing a file for a while after the click.
const KEPT_MILLISECONDS = 60_000;
const BOOK = ".book";

/**
 * Save a file under this name; a text is saved as UTF-8.
 * @param {string} name
 * @param {string | Uint8Array} held
 */
export function saveFile(name, held) {
  // A type that no browser shows: the file is always saved, with these bytes.
  const content = new Blob([held], { type: "application/octet-stream" });
  const link = document.createElement("a");
  link.href = URL.createObjectURL(content);
  link.download = name;
  link.hidden = true;
  document.body.append(link);
  link.click();
  link.remove();
  setTimeout(() => URL.revokeObjectURL(link.href), KEPT_MILLISECONDS);
}

/**
 * The name of a book without its ending, as the command names what it writes of many.
 * @param {string} name
 */
export function stemOf(name) {
  return name.endsWith(BOOK) ? name.slice(0, -BOOK.length) : name;
}
