// What is opened, pasted or dropped: texts of the program and stored pages.
import { ask, wholeText } from "./asking.js";
import { beside, bytesIn, textOf } from "./beside.js";
import { word } from "./language.js";
import { part } from "./panels.js";
import { TextFault, readChanges, readCheck } from "./text.js";

/** @typedef {import("./types.js").File} Stored */
/** @typedef {import("./types.js").Page} Page */

/**
 * Whether a reading takes a text.
 * @param {(text: string) => void} read
 * @param {Uint8Array} bytes
 */
function taken(read, bytes) {
  try {
    read(textOf(bytes));
    return true;
  } catch (fault) {
    return false;
  }
}

/**
 * Whether the first line of some bytes is a line of `changes`.
 * @param {Uint8Array} bytes
 */
function beginsAsChanges(bytes) {
  const end = bytes.indexOf(0x0a);
  return end !== 0 && taken(readChanges, end < 0 ? bytes : bytes.subarray(0, end));
}

/**
 * Which of some dropped files is which: a text of flash has a name that ends so, a text of check ends with its check line, a text
 * of changes begins with one of its lines, and what is left is the stored page. A single file is the text of changes.
 * @param {Stored[]} files
 */
export function sorted(files) {
  /** @type {Page} */
  const parts = { name: "", changes: null, page: null, check: null, flash: null };
  const left = files.filter((file) => {
    const isFlash = file.name.endsWith(".flash");
    if (isFlash) parts.flash = textOf(file.bytes);
    const isCheck = !isFlash && files.length > 1 && !parts.check && taken(readCheck, file.bytes);
    if (isCheck) parts.check = textOf(file.bytes);
    return !isFlash && !isCheck;
  });
  const changes = left.find((file) => beginsAsChanges(file.bytes)) || left[0];
  const page = left.find((file) => file !== changes);
  parts.name = changes ? changes.name : "";
  parts.changes = changes ? textOf(changes.bytes) : null;
  parts.page = page ? page.bytes : null;
  return parts;
}

// A file that can't be read, as a folder, or one that was written anew since it was chosen.
export class UnreadFile extends TextFault {
  /** @param {string} file */
  constructor(file) {
    super("ended4");
    this.file = file;
  }
}

/**
 * @param {File} file
 * @returns {Promise<Stored>}
 */
async function bytesOf(file) {
  try {
    return { name: file.name, bytes: new Uint8Array(await file.arrayBuffer()) };
  } catch (fault) {
    throw new UnreadFile(file.name);
  }
}

/** @param {FileList} list */
export async function dropped(list) {
  return sorted(await Promise.all([...list].map(bytesOf)));
}

/**
 * What the form holds: the pasted text is taken where no file of changes is chosen.
 * @returns {Promise<Page>}
 */
export async function chosen() {
  /** @type {(id: string) => Promise<Stored | null>} */
  const read = async (id) => {
    const [file] = part(id).files;
    return file ? bytesOf(file) : null;
  };
  const [changes, page, check, flash] = await Promise.all(["changes", "page", "check", "flash"].map((one) => read(`file-${one}`)));
  return {
    name: changes ? changes.name : word("pasted"),
    changes: changes ? textOf(changes.bytes) : part("paste").value || null,
    page: page ? page.bytes : null,
    check: check ? textOf(check.bytes) : null,
    flash: flash ? textOf(flash.bytes) : null,
  };
}

/**
 * The pages that `btx html` or `btx archive` put into this file.
 * @returns {Page[]}
 */
export function embedded() {
  /** @type {(Omit<Page, "page"> & { page: string })[]} */
  const pages = JSON.parse(part("pages").textContent);
  return pages.map((page) => ({ ...page, page: bytesIn(page.page) }));
}

/** @param {string} letters */
async function inflated(letters) {
  const { DecompressionStream } = /** @type {any} */ (globalThis);
  const stream = new Blob([bytesIn(letters)]).stream().pipeThrough(new DecompressionStream("deflate"));
  return new Response(stream).text();
}

/**
 * The text of changes of a stored page, by the module of an archive.
 * @param {Uint8Array} page
 */
async function decoded(page) {
  return wholeText(await ask(await WebAssembly.compile(bytesIn(beside().module)), "changes", { page }));
}

/**
 * The text of changes of a page of an archive: that of a short page is packed, and a long page is decoded. Any fault is one of its text.
 * @param {Page} page
 */
async function changesOf({ page, deflated }) {
  try {
    return await (deflated === undefined ? decoded(page || new Uint8Array()) : inflated(deflated));
  } catch (fault) {
    throw fault instanceof TextFault ? fault : new TextFault("notRead", { why: fault instanceof Error ? fault.message : String(fault) });
  }
}

/**
 * The same pages with their texts of changes.
 * @param {Page[]} pages
 */
export async function unpacked(pages) {
  for (const page of pages.filter((one) => one.changes === undefined)) {
    page.changes = await changesOf(page);
    delete page.deflated;
  }
  return pages;
}
