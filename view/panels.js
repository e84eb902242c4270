// What stands beside the screen: counts, the cell that is pointed at, refusals, the text, and the index of pages.
// Texts come into the document as text alone, never as markup.
import { grouped, onLanguage, word } from "./language.js";
import { CELLS, COLUMNS } from "./text.js";

/** @typedef {import("./film.js").Film} Film */
/** @typedef {import("./types.js").Check} Check */
/** @typedef {import("./types.js").Page} Page */

const MOST_REFUSALS = 1000;
const MOST_BYTES = 32;
/** @type {Map<string, () => string>} */
const told = new Map();

/**
 * An element of the document by its name; of which kind it is says view/index.html.
 * @param {string} id
 * @returns {any}
 */
export const part = (id) => document.getElementById(id);
/**
 * @param {string} id
 * @param {string} text
 */
export const say = (id, text) => {
  part(id).textContent = text;
};
/**
 * The same by a function that makes the text, and makes it again in another language.
 * @param {string} id
 * @param {() => string} text
 */
export const tell = (id, text) => {
  told.set(id, text);
  say(id, text());
};

/**
 * @template {keyof HTMLElementTagNameMap} K
 * @param {K} tag
 * @param {string} [text]
 * @param {Record<string, string>} [attributes]
 * @returns {HTMLElementTagNameMap[K]}
 */
function make(tag, text = "", attributes = {}) {
  const element = document.createElement(tag);
  if (text) element.textContent = text;
  for (const [name, value] of Object.entries(attributes)) element.setAttribute(name, value);
  return element;
}

/** @param {Uint8Array} bytes */
function hexadecimal(bytes) {
  const shown = [...bytes.subarray(0, MOST_BYTES)].map((byte) => byte.toString(16).toUpperCase().padStart(2, "0"));
  return bytes.length > MOST_BYTES ? word("moreBytes", { shown: shown.join(" "), count: bytes.length }) : shown.join(" ");
}

/**
 * @param {Film} film
 * @param {number} come
 */
export function showCounts(film, come) {
  const [from, to] = film.lastLines();
  say("count-bytes", word("some", { some: grouped(come), all: grouped(film.length) }));
  say("count-moments", word("some", { some: grouped(film.moment), all: grouped(film.moments.length) }));
  say("count-last", word("someCells", { some: to - from, all: CELLS }));
  say("count-all", grouped(to));
  say("count-whole", grouped(film.moment * CELLS));
}

/**
 * The sentence on the state, for a reader of the screen.
 * @param {Film} film
 * @param {number} come
 */
export function stateOf(film, come) {
  const [from, to] = film.lastLines();
  const last = film.moment ? film.moments[film.moment - 1] : null;
  const done = !last
    ? word("nothingCame")
    : last.refusal
      ? word("cameRefused", { place: last.place, name: last.refusal.name })
      : word("cameCells", { place: last.place, some: to - from, all: CELLS });
  return word("state", { come, length: film.length, done });
}

/**
 * The line of a cell, and the bytes that made it.
 * @param {Film} film
 * @param {number} cell
 */
export function showCell(film, cell) {
  const [row, column] = [Math.floor(cell / COLUMNS) + 1, (cell % COLUMNS) + 1];
  const line = film.lineOf(cell);
  if (line < 0) {
    say("cell-line", word("cellBlank", { row, column }));
    say("cell-bytes", "");
    return;
  }
  const moment = film.momentOf(line);
  const at = film.moments[moment].place;
  const look = film.changes.looks[film.changes.numbers[line]];
  const bytes = film.bytesOf(moment);
  say("cell-line", word("cellLine", { row, column, text: `${at} ${row} ${column} ${look.text}` }));
  say("cell-bytes", bytes ? word("cellBytes", { at, bytes: hexadecimal(bytes) }) : word("cellAt", { at }));
}

/**
 * The refusals, each a link to its moment. `check` tells how many items there are.
 * @param {Film} film
 * @param {Check | null} check
 * @param {string} name
 */
export function showRefusals(film, check, name) {
  const refusals = film.moments.flatMap(({ refusal }) => (refusal ? [refusal] : []));
  const list = part("refusals");
  list.replaceChildren();
  for (const refusal of refusals.slice(0, MOST_REFUSALS)) {
    const link = make("a", word("refusal", refusal), {
      href: `#${encodeURIComponent(name)}@${refusal.place}`,
    });
    const item = make("li");
    item.append(link);
    list.append(item);
  }
  const more = refusals.length > MOST_REFUSALS ? word("refusedFirst", { most: MOST_REFUSALS }) : "";
  const other = check && !sameRefusals(check.refusals, refusals) ? word("otherCheck") : "";
  say("refusals-count", countOf(refusals.length, check) + more + other);
}

/**
 * How many items are refused, of how many where `check` is there.
 * @param {number} refused
 * @param {Check | null} check
 */
function countOf(refused, check) {
  const many = refused > 1 ? "Some" : refused ? "One" : "None";
  if (check) return word(`refused${many}Of`, { count: grouped(refused), items: grouped(check.items) });
  return word(refused ? "refusedSome" : "refusedNone", { count: grouped(refused) });
}

/**
 * @param {Check["refusals"]} one
 * @param {Check["refusals"]} other
 */
function sameRefusals(one, other) {
  return JSON.stringify(one) === JSON.stringify(other);
}

/**
 * A button for each page with a small picture, which is painted once it can be seen.
 * @param {Page[]} pages
 * @param {(number: number) => void} open
 * @param {(page: Page, canvas: HTMLCanvasElement) => void} draw
 */
export function showIndex(pages, open, draw) {
  const index = part("index");
  index.hidden = pages.length < 2;
  index.replaceChildren();
  if (pages.length < 2) return;
  const seen = new IntersectionObserver((entries) => {
    for (const entry of entries.filter((one) => one.isIntersecting)) {
      const canvas = /** @type {HTMLCanvasElement} */ (entry.target);
      seen.unobserve(canvas);
      draw(pages[Number(canvas.dataset.page)], canvas);
    }
  });
  pages.forEach((page, number) => {
    const button = make("button", "", { type: "button" });
    const canvas = make("canvas", "", { "aria-hidden": "true", "data-page": String(number) });
    button.append(canvas, make("span", page.name));
    button.addEventListener("click", () => open(number));
    index.append(button);
    seen.observe(canvas);
  });
}

/** @param {number} number */
export function markIndex(number) {
  [...part("index").children].forEach((button, index) => {
    if (index === number) button.setAttribute("aria-current", "true");
    else button.removeAttribute("aria-current");
  });
}

onLanguage(() => told.forEach((text, id) => say(id, text())));
