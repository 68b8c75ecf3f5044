// The parts of the page that are always there: the line that reports, the bar of actions and the
// place of the result.

/**
 * What the line reports: news, something accepted, refused or to be looked at.
 * @typedef {"" | "good" | "bad" | "open"} Tone
 */

/**
 * An element of index.html.
 * @param {string} id
 */
export function part(id) {
  const found = document.getElementById(id);
  if (!found) throw new Error(`the page has no part ${id}`);
  return found;
}

/**
 * Report in one line, which screen readers read out.
 * @param {string} words
 * @param {Tone} tone
 */
export function report(words, tone = "") {
  const line = part("status");
  line.className = tone;
  line.textContent = words;
}

/**
 * Change what the page shows: a view by its name, and the title of the window.
 * @param {string} view
 * @param {string} title
 */
export function setView(view, title) {
  document.body.dataset.view = view;
  document.title = title ? `${title} - Xaropinto` : "Xaropinto";
}

/**
 * Nodes of a text in XHTML; a text that is none is an error.
 * @param {string} text a whole page
 * @returns {Node[]}
 */
function nodesOf(text) {
  const parsed = new DOMParser().parseFromString(text, "application/xhtml+xml");
  const wrong = parsed.querySelector("parsererror");
  if (wrong) throw new Error(`the result is no page: ${wrong.textContent}`);
  return Array.from(parsed.body.childNodes, (node) => document.importNode(node, true));
}

/**
 * Show the body of a page that stands alone, as the command writes it.
 * @param {string} page
 */
export function showPage(page) {
  part("result").replaceChildren(...nodesOf(page));
}

/**
 * Fill the bar of actions.
 * @param {Node[]} actions
 */
export function showActions(actions) {
  const bar = part("actions");
  bar.replaceChildren(...actions);
  bar.hidden = !actions.length;
}

/** Move a table that is wider than the page so far sideways that its marked cell is seen. */
export function bringMarkIntoView() {
  const mark = part("result").querySelector(".scroll mark"), table = mark?.closest(".scroll");
  if (!mark || !table) return;
  const cell = mark.getBoundingClientRect(), window = table.getBoundingClientRect();
  table.scrollLeft += cell.left + cell.width / 2 - window.left - window.width / 2;
}

/** Move the focus to the result: what had it is gone. */
export function focusResult() {
  part("result").focus();
}
