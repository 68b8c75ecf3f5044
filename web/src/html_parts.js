// What the pages share: the document with its style, tables, and lists of facts. As
// python/xaropinto/html_parts.py.

import { HTML_PARTS } from "../../target/web/tables.js";

// Control characters, halves of characters, and codes that no version of Unicode assigns.
const NO_TEXT = /[\p{Cc}\p{Cs}\p{Noncharacter_Code_Point}]/gu;
/** @type {Record<string, string>} */
const ESCAPES = { "&": "&amp;", "<": "&lt;", ">": "&gt;", '"': "&quot;" };
// A SHA-256 is known by its length.
const DIGEST_LETTERS = 64;

/**
 * A page that stands alone.
 * @param {string} title
 * @param {string[]} sections
 */
export function document(title, sections) {
  return [
    '<?xml version="1.0" encoding="utf-8"?>', "<!DOCTYPE html>",
    '<html xmlns="http://www.w3.org/1999/xhtml" lang="en">', "<head>",
    '<meta charset="utf-8"/>',
    '<meta name="viewport" content="width=device-width, initial-scale=1"/>',
    `<title>${text(title)}</title>`, `<style>${HTML_PARTS.STYLE}</style>`, "</head>", "<body>",
    ...sections, "</body>", "</html>", "",
  ].join("\n");
}

/**
 * Words as they may stand in a page: what is no character of a text is marked.
 * @param {string} words
 */
export function text(words) {
  return words.replace(NO_TEXT, "\ufffd").replace(/[&<>"]/g, (letter) => ESCAPES[letter]);
}

/**
 * A heading with what belongs to it, kept on one printed page where it fits.
 * @param {string} title
 * @param {...string} parts
 */
export function section(title, ...parts) {
  return [`<section><h2>${text(title)}</h2>`, ...parts, "</section>"].join("\n");
}

/**
 * A remark.
 * @param {string} words
 */
export function note(words) {
  return `<p class="note">${text(words)}</p>`;
}

/**
 * An element with its attributes; an empty attribute is left out.
 * @param {string} tag
 * @param {string} words
 * @param {Record<string, string>} [attributes]
 */
export function element(tag, words, attributes = {}) {
  const given = Object.entries(attributes).filter(([, value]) => value)
    .map(([name, value]) => ` ${name}="${text(value)}"`).join("");
  return `<${tag}${given}>${text(words)}</${tag}>`;
}

/**
 * A table whose first column names the row and whose others are numbers.
 * @param {string} caption
 * @param {string[]} headings
 * @param {string[][]} rows
 * @param {string} kind
 */
export function table(caption, headings, rows, kind = "") {
  const top = headings.map((cell, at) =>
    element("th", cell, { scope: "col", class: at ? "number" : "" })).join("");
  const body = rows.map(([name, ...cells]) => {
    const numbers = cells.map((cell, at) =>
      element("td", cell, { class: "number", "data-label": headings[at + 1] })).join("");
    return `<tr>${element("th", name, { scope: "row" })}${numbers}</tr>`;
  });
  return [`<table class="${kind || "plain"}">`, element("caption", caption),
    `<thead><tr>${top}</tr></thead>`, "<tbody>", ...body, "</tbody></table>"].join("\n");
}

/**
 * Names with their values; a SHA-256 may be broken anywhere.
 * @param {string} caption
 * @param {[string, string][]} rows
 */
export function facts(caption, rows) {
  const body = rows.map(([name, held]) => {
    const cell = element("td", held,
      { class: Array.from(held).length === DIGEST_LETTERS ? "hash" : "" });
    return `<tr>${element("th", name, { scope: "row" })}${cell}</tr>`;
  });
  return ['<table class="facts">', element("caption", caption), "<tbody>", ...body,
    "</tbody></table>"].join("\n");
}

/**
 * A list.
 * @param {string[]} lines
 */
export function items(lines) {
  return ["<ul>", ...lines.map((line) => `<li>${text(line)}</li>`), "</ul>"].join("\n");
}

/**
 * Charts in two columns, in one on a narrow screen.
 * @param {string[]} parts
 */
export function charts(parts) {
  return ['<div class="charts">', ...parts, "</div>"].join("\n");
}

/**
 * A chart below its title.
 * @param {string} title
 * @param {string} chart
 */
export function captioned(title, chart) {
  return `<section>${element("h3", title)}\n${chart}</section>`;
}
