// Elements of the document, and controls that can be reached by keyboard and have a name in both languages.
import { PICTURE } from "./shared.js";

/**
 * An element of the document by its name; of which kind it is says edit/index.html.
 * @param {string} id
 * @returns {any}
 */
export const part = (id) => document.getElementById(id);
/**
 * @param {string} id
 * @param {string} text
 */
export const say = (id, text) => {
  if (part(id).textContent !== text) part(id).textContent = text;
};

/**
 * An element: attributes by their names, listeners by the names that begin with on, words of the tables by word and name.
 * @template {keyof HTMLElementTagNameMap} K
 * @param {K} tag
 * @param {Record<string, any>} [attributes]
 * @param {...(Node | string)} children
 * @returns {HTMLElementTagNameMap[K]}
 */
export function make(tag, attributes = {}, ...children) {
  const element = document.createElement(tag);
  for (const [name, value] of Object.entries(attributes)) {
    if (value === false || value === null) continue;
    if (name.startsWith("on")) element.addEventListener(name.slice(2), value);
    else if (name === "word" || name === "name") element.dataset[name] = value;
    else if (name === "values") Object.assign(element.dataset, value);
    else element.setAttribute(name, value === true ? "" : value);
  }
  element.append(...children);
  return element;
}

/**
 * @param {string} key
 * @param {() => void} act
 * @param {Record<string, any>} [more]
 */
export const button = (key, act, more = {}) => make("button", { type: "button", word: key, onclick: act, ...more });
/**
 * @param {string} key
 * @param {...(Node | string)} children
 */
export const group = (key, ...children) => make("div", { class: "group", role: "group", name: key },
  make("span", { class: "head", word: key, "aria-hidden": "true" }), ...children);

/**
 * A choice: the value, the key and the values of the word of each option.
 * @param {string} key
 * @param {(readonly [string, string | null, Record<string, any>?])[]} options
 * @param {(value: string) => void} act
 * @param {Record<string, any>} [more]
 */
export function choice(key, options, act, more = {}) {
  const select = make("select", { name: key, onchange: () => act(select.value), ...more });
  for (const [value, name, values] of options) select.append(make("option", { value, word: name, ...(values ? { values } : {}) }));
  return select;
}

/**
 * @param {string} key
 * @param {number} from
 * @param {number} to
 * @param {number} value
 */
export function numbers(key, from, to, value) {
  return make("input", { type: "number", name: key, min: from, max: to, value, required: true });
}

/**
 * Of a list of elements one can be reached by Tab, and the others from it by the arrow keys. `across` is how many stand in a row.
 * @param {HTMLElement[]} list
 * @param {number} [across]
 */
export function rove(list, across = list.length) {
  /** @type {(at: number) => void} */
  const reach = (at) => list.forEach((element, index) => { element.tabIndex = index === at ? 0 : -1; });
  reach(0);
  list.forEach((element, index) => {
    element.addEventListener("focus", () => reach(index));
    element.addEventListener("keydown", (event) => {
      /** @type {Record<string, number>} */
      const steps = { ArrowLeft: -1, ArrowRight: 1, ArrowUp: -across, ArrowDown: across };
      const step = steps[event.key];
      const to = index + (step || 0);
      if (!step || to < 0 || to >= list.length) return;
      event.preventDefault();
      list[to].focus();
    });
  });
}

/**
 * Has Tab reach the first of such a list that isn't hidden, in place of one that is.
 * @param {HTMLElement[]} list
 */
export function reachShown(list) {
  const [hidden, shown] = [list.find((element) => element.hidden && element.tabIndex === 0), list.find((element) => !element.hidden)];
  if (hidden && shown) [hidden.tabIndex, shown.tabIndex] = [-1, 0];
}

/**
 * Tabs: the panel of the chosen one is shown; the arrow keys go to the others.
 * @param {HTMLElement} list
 * @param {(panel: string) => void} shown
 */
export function joinTabs(list, shown) {
  /** @type {HTMLElement[]} */
  const tabs = Array.from(list.querySelectorAll("[role=tab]"));
  /** @type {(tab: HTMLElement) => string} */
  const panelOf = (tab) => tab.getAttribute("aria-controls") || "";
  /** @type {(tab: HTMLElement) => void} */
  const choose = (tab) => {
    for (const one of tabs) {
      one.setAttribute("aria-selected", String(one === tab));
      part(panelOf(one)).hidden = one !== tab;
    }
    shown(panelOf(tab));
  };
  rove(tabs);
  tabs.forEach((tab) => tab.addEventListener("click", () => choose(tab)));
  choose(tabs[0]);
}

/** @param {...(Node | string)} children */
export const inLine = (...children) => make("div", { class: "line" }, ...children);

/**
 * The colour of a paint as a style.
 * @param {string} paint
 * @returns {string}
 */
export const styleOf = (paint) => (paint === "---" ? PICTURE[0] : `#${paint}`);

/**
 * A square of a colour with its name.
 * @param {string} key
 * @param {Record<string, any>} values
 * @param {() => void} act
 */
export function swatch(key, values, act) {
  return make("button", { type: "button", class: "swatch", name: key, values, onclick: act });
}
