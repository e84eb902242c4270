// The language that is shown, of those that have a table of words.
import { beside } from "./beside.js";
import { TABLES } from "./words.js";

/** @typedef {import("./types.js").Values} Values */

const KEPT = "tamligub-language";
/** @type {(() => void)[]} */
const listeners = [];
let language = "en";

/**
 * What the browser keeps; nothing where it keeps nothing, as some do of files.
 * @param {"localStorage" | "sessionStorage"} storage
 * @param {string} key
 * @param {string} [value]
 */
export function kept(storage, key, value) {
  try {
    if (value !== undefined) window[storage].setItem(key, value);
    return window[storage].getItem(key);
  } catch (fault) {
    return null;
  }
}

/**
 * The words of a key, with values in the places of their names.
 * @param {string} key
 * @param {Values} [values]
 */
export const word = (key, values = {}) => TABLES[language][key].replace(/\{(\w+)\}/g, (_, name) => String(values[name]));

/** @param {number} number */
export const grouped = (number) => Number(number).toLocaleString(language);

/**
 * Gives each element that names a word that word, as its text, its name or what stands in it while it is empty.
 * @param {Document} root
 */
function speak(root) {
  /** @type {(kind: string, give: (element: HTMLElement, text: string) => void) => void} */
  const each = (kind, give) => {
    for (const element of root.querySelectorAll(`[data-${kind}]`)) {
      if (element instanceof HTMLElement) give(element, word(element.dataset[kind] || ""));
    }
  };
  each("word", (element, text) => { element.textContent = text; });
  each("name", (element, text) => element.setAttribute("aria-label", text));
  each("role", (element, text) => element.setAttribute("aria-roledescription", text));
  each("empty", (element, text) => element.setAttribute("placeholder", text));
}

/** @param {string} other */
function setLanguage(other) {
  language = TABLES[other] ? other : "en";
  document.documentElement.lang = language;
  speak(document);
  for (const act of listeners) act();
}

/**
 * Calls back after each choice of a language.
 * @param {() => void} act
 */
export const onLanguage = (act) => listeners.push(act);

/**
 * The language that was chosen last, or that of the browser.
 * @returns {string}
 */
function firstLanguage() {
  const last = kept("localStorage", KEPT);
  return last && TABLES[last] ? last : (navigator.language || "de").startsWith("de") ? "de" : "en";
}

/**
 * Begins to speak, and has a list of languages choose another.
 * @param {HTMLSelectElement} list
 */
export function joinLanguages(list) {
  setLanguage(language);
  list.value = language;
  list.addEventListener("change", () => {
    setLanguage(list.value);
    kept("localStorage", KEPT, language);
  });
}

export const spoken = () => language;
export const title = () => (beside().site || {}).title || word("archive");

language = firstLanguage();
