// Buttons of the bar, and the words of what goes wrong when one is pressed.
import { LAYOUT } from "../../target/web/tables.js";
import { report } from "./frame.js";

// Errors that a person can do something about; any other is a fault of the page.
const EXPECTED = ["RefusedError", "BadLineError", "GivenError", "YearsError"];

/**
 * Do something and report what stops it.
 * @param {() => void | Promise<void>} act
 */
export async function attempt(act) {
  try {
    await act();
  } catch (error) {
    report(trouble(error), "bad");
  }
}

/**
 * What went wrong, in words.
 * @param {unknown} error
 */
export function trouble(error) {
  if (!(error instanceof Error)) return `this is a fault of the page, please report it: ${error}`;
  if (error.name === "BadLineError") return `refused: ${error.message}`;
  if (EXPECTED.includes(error.name)) return error.message;
  // Nothing is known of the module's memory any more.
  if (error instanceof WebAssembly.RuntimeError) {
    return `the proved code stopped: ${error.message}; load this page again`;
  }
  return `this is a fault of the page, please report it: ${error.name}: ${error.message}`;
}

/**
 * A button.
 * @param {string} words
 * @param {() => void | Promise<void>} act
 * @param {boolean} first whether it is the one that most people want
 */
export function button(words, act, first = false) {
  const held = document.createElement("button");
  held.type = "button";
  held.textContent = words;
  held.className = first ? "first" : "";
  held.addEventListener("click", () => attempt(act));
  return held;
}

/**
 * Buttons that belong together, behind the word that says what they do.
 * @param {string} word
 * @param {...Node} buttons
 */
export function group(word, ...buttons) {
  const held = document.createElement("div"), label = document.createElement("span");
  held.className = "row";
  held.setAttribute("role", "group");
  held.setAttribute("aria-label", word);
  label.textContent = word;
  label.className = "word";
  label.setAttribute("aria-hidden", "true");
  held.append(label, ...buttons);
  return held;
}

/**
 * A choice of the setting with a button that uses it.
 * @param {string} words
 * @param {(setting: number) => void} act
 */
export function settingButton(words, act) {
  const choice = document.createElement("select");
  choice.setAttribute("aria-label", "Setting of the year report");
  choice.append(...LAYOUT.SETTINGS.map((name, setting) => new Option(`${setting} ${name}`)));
  const held = document.createElement("span");
  held.className = "pair";
  held.append(button(words, () => act(choice.selectedIndex)), choice);
  return held;
}
