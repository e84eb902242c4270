// Leads from a page of an archive to the one before it, the next one, its folders, and back to the index as that was left.
import { kept, onLanguage, title, word } from "./language.js";

/** @typedef {[address: string, title: string] | null} Step */

const nav = /** @type {HTMLElement} */ (document.getElementById("walk"));
const here = /** @type {{ up: string, part: string, address: string, path: string }} */ (/** @type {any} */ (nav.dataset));
const heading = /** @type {HTMLAnchorElement} */ (document.querySelector("h1 a"));
const index = `${here.up}index.html`;
/** @type {Step[] | null} */
let steps = null;

/**
 * @param {string} text
 * @param {string} address
 * @param {string} [relation]
 */
function link(text, address, relation = "") {
  const element = document.createElement("a");
  element.textContent = text;
  element.href = address;
  if (relation) element.rel = relation;
  return element;
}

// The folders of the page, named as the index names them, each a link to the index of what is in it.
function folders() {
  const names = here.path.split("/").slice(0, -1);
  return names.map((name, at) => link(`${name}/`, `${index}#${new URLSearchParams({ folder: names.slice(0, at + 1).join("/") + "/" })}`));
}

/**
 * A part of the archive's order has for the address of each page its neighbours, each with address and title.
 * @param {Record<string, Step[]>} part
 */
export function walk(part) {
  steps = part[here.address] || [null, null];
  showSteps();
}

function showSteps() {
  if (!steps) return;
  const both = [["before", "prev", "◀ "], ["after", "next", "▶ "]];
  const some = steps;
  const links = both.map(([key, relation, sign], at) => {
    const step = some[at];
    if (!step) return "";
    const [address, name] = step;
    const element = link(sign + name, `${here.up}pages/${address}.html`, relation);
    element.title = word(key);
    return element;
  });
  nav.replaceChildren(links[0], ...folders(), links[1]);
}

function speak() {
  nav.setAttribute("aria-label", word("walk"));
  heading.textContent = title();
  showSteps();
}

function begin() {
  speak();
  onLanguage(speak);
  heading.href = index + (kept("sessionStorage", `tamligub-index ${new URL(index, document.baseURI)}`) || "");
  const script = document.createElement("script");
  script.src = `${here.up}walk/${here.part}.js`;
  document.head.append(script);
}
begin();
