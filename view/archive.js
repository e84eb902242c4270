// The index of an archive: entries that are searched, filtered and sorted, folders, and small pictures that are asked for as they come
// into sight. What is chosen stands in the address.
import { grouped, joinLanguages, kept, onLanguage, title, word } from "./language.js";
import { meaningIn } from "./meanings.js";

/**
 * What is shown of a page, and of all pages: how many there are, and for each its status, bytes, refused items, and the number of the first
 * with its screen; which of them are no pages but folders that can't be read; the folders with their first page and that after the last; the
 * files of words by the first letters.
 * @typedef {{
 *   name: string, address: string, bytes: number | null, status: number, items: number, refused: number, meaning: string, title: string,
 *   alike: string,
 * }} Entry
 * @typedef {{
 *   count: number, part: number, status: number[], bytes: number[], refused: number[], alike: number[], unread: number[],
 *   folders: [place: string, from: number, to: number][], letters: Record<string, string>,
 * }} All
 */

const AT_ONCE = 60;
const FIELDS = ["name", "address", "bytes", "status", "items", "refused", "meaning", "title", "alike"];
/** @type {Record<string, string>} */
const LETTERS = { "ß": "ss", "æ": "ae", "œ": "oe", "ø": "o", "ł": "l", "đ": "d", "ı": "i" };
const CONTROLS = { search: "", filter: "all", order: "name" };
/**
 * An element of the document by its name; of which kind it is says view/archive.html.
 * @param {string} id
 * @returns {any}
 */
const part = (id) => document.getElementById(id);
// A text as it is searched, as btx/search.py has it too: without accents, and letters that stand for two as two.
/** @param {string} text */
const unaccented = (text) => text.toLowerCase().normalize("NFKD").replace(/[\u0300-\u036f]+/g, "");
/** @param {string} text */
const folded = (text) => unaccented(text).replace(/[ßæœøłđı]/g, (sign) => LETTERS[sign]);

const WORD = /[\p{L}\p{N}]+/gu;
/** @type {All} */
const all = JSON.parse(part("entries").textContent);
const letters = Object.keys(all.letters);
const unreadFolders = new Set(all.unread);
/** @param {number} status */
const isRead = (status) => status === 0 || status === 1;
/** @type {Record<string, (number: number) => boolean>} */
const FILTERS = {
  all: () => true,
  whole: (number) => all.status[number] === 0,
  refused: (number) => all.status[number] === 1,
  unread: (number) => !isRead(all.status[number]),
  alike: (number) => all.alike[number] > 0,
};
/** @type {(column: number[]) => (one: number, other: number) => number} */
const falling = (column) => (one, other) => column[other] - column[one];
/** @type {Record<string, ((one: number, other: number) => number) | null>} */
const ORDERS = { name: null, bytes: falling(all.bytes), refused: falling(all.refused) };
/** @type {Map<number, any[][]>} */
const parts = new Map();
/** @type {Map<string, Record<string, number[]>>} */
const found = new Map();
/** @type {Map<string, Promise<unknown>>} */
const asked = new Map();
let folder = "";
/** @type {number[]} */
let chosen = [];
let shown = 0;
let turn = 0;

/**
 * @template {keyof HTMLElementTagNameMap} K
 * @param {K} tag
 * @param {string} [name]
 * @param {string} [text]
 * @returns {HTMLElementTagNameMap[K]}
 */
function make(tag, name = "", text = "") {
  const element = document.createElement(tag);
  if (name) element.className = name;
  if (text) element.textContent = text;
  return element;
}

/** @param {string} address */
function script(address) {
  const element = make("script");
  element.src = address;
  element.addEventListener("load", () => element.remove());
  document.head.append(element);
  return element;
}

/**
 * A script that is asked for once.
 * @param {string} address
 */
function fetched(address) {
  const known = asked.get(address) || new Promise((done) => {
    const element = script(address);
    for (const kind of ["load", "error"]) element.addEventListener(kind, done);
    element.addEventListener("error", () => { part("part-missing").hidden = false; });
  });
  asked.set(address, known);
  return known;
}

// A picture is asked for when it has come into sight; where a page has none it goes.
const inSight = new IntersectionObserver((seen) => {
  for (const { target } of seen.filter((one) => one.isIntersecting)) {
    inSight.unobserve(target);
    if (target instanceof HTMLImageElement) target.src = `pictures/${target.dataset.address}.png`;
  }
}, { rootMargin: "200px" });

/** @param {string} address */
function picture(address) {
  const image = make("img");
  image.alt = "";
  image.decoding = "async";
  image.dataset.address = address;
  image.addEventListener("error", () => image.remove());
  inSight.observe(image);
  return image;
}

/** @param {Entry} entry */
const meaning = (entry) => meaningIn(entry.meaning, document.documentElement.lang);

/** @param {Entry} entry */
function factsOf(entry) {
  const facts = [];
  if (entry.bytes !== null) facts.push(word("bytes", { bytes: grouped(entry.bytes) }));
  if (isRead(entry.status)) facts.push(word("items", { refused: grouped(entry.refused), items: grouped(entry.items) }));
  facts.push(word("status", { status: entry.status }));
  if (entry.alike && entry.alike !== entry.name) facts.push(word("same", { name: entry.alike }));
  const note = isRead(entry.status) ? meaning(entry).split("; ")[1] : "";
  return (note ? [...facts, note] : facts).join(", ");
}

/** @param {number} number */
function tile(number) {
  const entry = entryAt(number);
  const item = make("li");
  const holder = isRead(entry.status) ? make("a") : make("div");
  if (holder instanceof HTMLAnchorElement) {
    holder.href = `pages/${entry.address}.html`;
    holder.append(picture(entry.address));
  } else {
    holder.append(make("span", "unread", meaning(entry)));
  }
  if (entry.title) holder.append(make("span", "title", entry.title));
  holder.append(make("span", "name", entry.name));
  item.append(holder);
  if (!unreadFolders.has(number)) item.append(make("span", "facts", factsOf(entry)));
  return item;
}

/** @param {number} number */
const partOf = (number) => Math.floor(number / all.part);

/**
 * @param {number} number
 * @returns {Entry}
 */
function entryAt(number) {
  const values = (parts.get(partOf(number)) || [])[number % all.part];
  return /** @type {any} */ (Object.fromEntries(FIELDS.map((field, at) => [field, values[at]])));
}

const more = new IntersectionObserver((seen) => seen.some((one) => one.isIntersecting) && showMore(), { rootMargin: "800px" });

// Shows the next entries, once their parts have come; nothing where something else was chosen meanwhile.
async function showMore() {
  more.unobserve(part("more"));
  const [mine, begun] = [turn, shown];
  const next = chosen.slice(begun, begun + AT_ONCE);
  await Promise.all([...new Set(next.map(partOf))].map((number) => fetched(`entries/${number}.js`)));
  if (mine !== turn) return;
  if (!begun) part("tiles").replaceChildren();
  part("tiles").append(...next.filter((number) => parts.has(partOf(number))).map(tile));
  showUpTo(begun + next.length);
}

/** @param {number} count */
function showUpTo(count) {
  shown = count;
  if (shown < chosen.length) more.observe(part("more"));
}

/**
 * The state that stands in the address: what differs from the beginning.
 * @param {string} place
 */
function addressOf(place) {
  const state = new URLSearchParams();
  if (place) state.set("folder", place);
  for (const [id, usual] of Object.entries(CONTROLS)) if (part(id).value !== usual) state.set(id, part(id).value);
  const text = state.toString();
  return text ? `#${text}` : "#";
}

function readAddress() {
  const state = new URLSearchParams(window.location.hash.slice(1));
  folder = state.get("folder") || "";
  for (const [id, usual] of Object.entries(CONTROLS)) {
    part(id).value = state.get(id) ?? usual;
    if (part(id).value === "" && id !== "search") part(id).value = usual;
  }
}

function keepAddress() {
  const address = addressOf(folder);
  if ((window.location.hash || "#") !== address) window.history.replaceState(null, "", address);
  kept("sessionStorage", `tamligub-index ${new URL("index.html", window.location.href)}`, address === "#" ? "" : address);
}

/**
 * @param {string} place
 * @param {string} text
 */
function folderLink(place, text) {
  const element = make("a", "", text);
  element.href = addressOf(place);
  if (place === folder) element.setAttribute("aria-current", "true");
  return element;
}

// The folder that is shown, those around it, and those in it.
function showFolders() {
  const names = folder.split("/").slice(0, -1);
  const around = names.map((name, at) => folderLink(names.slice(0, at + 1).join("/") + "/", `${name}/`));
  /** @param {string} place */
  const isIn = (place) => place !== folder && place.startsWith(folder) && place.indexOf("/", folder.length) === place.length - 1;
  const below = all.folders.filter(([place]) => isIn(place)).map(([place]) => folderLink(place, place.slice(folder.length)));
  const top = around.length || below.length ? [folderLink("", word("allFolders"))] : [];
  part("folders").replaceChildren(...top, ...around, ...below);
}

/**
 * The first letters of which a word's parts are asked for.
 * @param {string} one
 */
function lettersOf(one) {
  const signs = [...one];
  return letters.filter((first) => (signs.length > 1 ? first === signs.slice(0, 2).join("") : first.startsWith(one)));
}

/**
 * For each page whether it has a word that begins so.
 * @param {string} beginning
 */
function havingWord(beginning) {
  const has = new Uint8Array(all.count);
  for (const first of lettersOf(beginning)) {
    for (const [one, gaps] of Object.entries(found.get(first) || {})) {
      if (!one.startsWith(beginning)) continue;
      let number = 0;
      for (const gap of gaps) has[(number += gap)] = 1;
    }
  }
  return has;
}

/**
 * Puts pages with the same screen one after the other, where the first of them stands.
 * @param {number[]} some
 */
function together(some) {
  /** @type {Map<number, number>} */
  const places = new Map();
  some.forEach((number, at) => places.set(all.alike[number], Math.min(at, places.get(all.alike[number]) ?? at)));
  const place = (/** @type {number} */ number) => places.get(all.alike[number]) || 0;
  return some.sort((one, other) => place(one) - place(other));
}

/**
 * The numbers of the pages that are chosen, in their order.
 * @param {string[]} wanted
 */
function numbers(wanted) {
  const filter = part("filter").value;
  const having = wanted.map(havingWord);
  const [, from, to] = folder ? all.folders.find(([place]) => place === folder) || ["", 0, 0] : ["", 0, all.count];
  /** @type {number[]} */
  const some = [];
  for (let number = from; number < to; number++) {
    if (FILTERS[filter](number) && having.every((has) => has[number])) some.push(number);
  }
  const order = ORDERS[part("order").value];
  if (order) some.sort(order);
  return filter === "alike" ? together(some) : some;
}

// How many of all pages are chosen, and apart from them how many folders that can't be read.
function countOf() {
  const folders = chosen.filter((number) => unreadFolders.has(number)).length;
  const pages = word("count", { some: grouped(chosen.length - folders), all: grouped(all.count - unreadFolders.size) });
  return folders ? `${pages}, ${word("unreadFolders", { some: grouped(folders) })}` : pages;
}

async function choose() {
  const mine = ++turn;
  const text = folded(part("search").value).trim();
  // What has no letter and no digit is in no page.
  const wanted = text.match(WORD) || (text ? [text] : []);
  keepAddress();
  await Promise.all(wanted.flatMap(lettersOf).map((first) => fetched(`words/${all.letters[first]}`)));
  if (mine !== turn) return;
  chosen = numbers(wanted);
  part("count").textContent = countOf();
  part("none-found").hidden = chosen.length > 0 || !part("part-missing").hidden;
  shown = 0;
  showFolders();
  showMore();
}

// Scripts call these: what is shown of the pages of a part, and the pages of all words that begin with some letters.
/** @type {(number: number, values: any[][]) => void} */
export const entries = (number, values) => void parts.set(number, values);
/** @type {(first: string, pages: Record<string, number[]>) => void} */
export const words = (first, pages) => void found.set(first, pages);

function speak() {
  document.title = part("title").textContent = title();
  choose();
}
for (const [id, kind] of [["search", "input"], ["filter", "change"], ["order", "change"]]) part(id).addEventListener(kind, choose);
part("choice").addEventListener("submit", (/** @type {Event} */ event) => event.preventDefault());
window.addEventListener("hashchange", () => {
  readAddress();
  choose();
});
readAddress();
onLanguage(speak);
joinLanguages(part("language"));
