// Decodes stored pages that are opened, pasted or dropped, by the module that stands in this file. Nothing leaves the machine. Texts of
// `changes` are taken as without it.
import { bytesIn } from "./beside.js";
import { bytesOf, decoded, givenOf, handed, isChanges, named } from "./decoding.js";
import { sorted } from "./files.js";
import { word } from "./language.js";
import { part, say, tell } from "./panels.js";
import { begun, viewer } from "./viewer.js";

/** @typedef {import("./decoding.js").Found} Found */
/** @typedef {import("./decoding.js").PageFault} PageFault */

export const compiled = WebAssembly.compile(bytesIn(part("module").textContent));

// Which of the showings is the last: an earlier one that is still decoding shows nothing.
let turn = 0;

/** @param {PageFault[]} faults */
function tellFaults(faults) {
  if (faults.length) tell("fault", () => faults.map((fault) => fault.told()).join("; "));
}

/**
 * Shows files: stored pages, or the texts of one page. What can't be shown is said, after some faults that are known already.
 * @param {Found[]} list
 * @param {PageFault[]} [faults]
 */
async function show(list, faults = []) {
  const mine = ++turn;
  const module = await compiled;
  const files = await givenOf(named(list), faults, bytesOf);
  const pages = files.filter((file) => !file.name.endsWith(".flash"));
  if (files.length && (!pages.length || pages.some((file) => isChanges(file.bytes)))) {
    viewer.takeParts(sorted(files));
    // What it says of these texts goes before.
    if (!part("fault").textContent) tellFaults(faults);
    return;
  }
  const shown = await givenOf(pages, faults, (file) => decoded(module, file));
  if (mine !== turn) return;
  if (shown.length) viewer.take(shown);
  tellFaults(faults);
}

// Until a page is opened the screen says how, and there are pages to look at.
async function showExamples() {
  const module = await compiled;
  if (viewer.pages.length) return;
  /** @type {{ name: string, page: string }[]} */
  const stored = JSON.parse(part("examples").textContent);
  const shown = await Promise.all(stored.map(({ name, page }) => decoded(module, { name, bytes: bytesIn(page) })));
  // A page that was opened meanwhile stays.
  if (viewer.pages.length) return;
  viewer.take(shown);
  viewer.follow();
}

/**
 * @param {Event} event
 * @param {DataTransfer} data
 */
async function takeAll(event, data) {
  event.preventDefault();
  event.stopImmediatePropagation();
  document.body.classList.remove("dropping");
  /** @type {PageFault[]} */
  const faults = [];
  await show(await handed(data, faults), faults);
}

/** @type {(event: Event, data: DataTransfer | null) => void} */
const takes = (event, data) => {
  if (data && data.files.length) takeAll(event, data);
};
window.addEventListener("drop", (event) => takes(event, event.dataTransfer), true);
window.addEventListener("paste", (event) => takes(event, /** @type {ClipboardEvent} */ (event).clipboardData), true);
window.addEventListener("submit", (event) => {
  /** @type {(id: string) => File[]} */
  const files = (id) => [...part(id).files];
  if (event.target !== part("open") || !files("file-page").length || files("file-changes").length || part("paste").value) return;
  event.preventDefault();
  event.stopImmediatePropagation();
  show(files("file-page").map((file) => ({ path: file.name, file })));
}, true);

part("file-page").multiple = true;
part("open-words").dataset.word = "openPages";
say("open-words", word("openPages"));
export const examples = begun.then(showExamples);
