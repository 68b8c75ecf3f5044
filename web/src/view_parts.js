// What the views share: a book, what they need of the page, and what most of them do.
import { button } from "./actions.js";
import { focusResult, report } from "./frame.js";
import { saveFile } from "./saving.js";

/**
 * A book by its name, and what was done to make it where it was made here.
 * @typedef {{name: string, held: Uint8Array, made?: string}} Book
 */
/**
 * What the views need of the page: what is said at the top of a page, a book to be shown,
 * another to be chosen, and that it remembers how to draw the view anew.
 * @typedef {object} Surroundings
 * @property {() => import("./page.js").Imprint} imprint
 * @property {(book: Book) => void} open
 * @property {() => void} chooseOther
 * @property {(draw: () => void) => void} remember
 */

/**
 * Save what a view offers.
 * @param {string} name
 * @param {string | Uint8Array} held
 */
export function save(name, held) {
  saveFile(name, held);
  report(`${name}: passed to the browser, which puts it where it puts downloads`);
}

/**
 * The button that leads back to a book.
 * @param {Book} book
 * @param {Surroundings} around
 */
export function backTo(book, around) {
  return leaving(`Back to ${book.name}`, () => around.open(book));
}

/**
 * A button that leads to another view. It is gone then, so the focus moves to the result.
 * @param {string} words
 * @param {() => void} show
 * @param {boolean} first whether it is the one that most people want
 */
export function leaving(words, show, first = false) {
  return button(words, () => {
    show();
    focusResult();
  }, first);
}
