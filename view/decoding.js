// Stored pages as they are handed to the browser, and what the program puts of each: which files a drop has, in folders too, and the words for a
// page that can't be shown.
import { ask, statusFault, wholeText } from "./asking.js";
import { textOf } from "./beside.js";
import { word } from "./language.js";
import { TextFault, readChanges } from "./text.js";

/** @typedef {import("./types.js").File} Stored */
/** @typedef {import("./types.js").Page} Page */
/** @typedef {{ path: string, file: File }} Found */

const [UNREAD, NO_MEMORY] = [4, 6];
// Each phase of the flash once, and back to the first.
const TURNS = 6;
const TURNED = /^[1-9]/m;
const PAGE = /\.btx$/i;

// A page that can't be shown, or a folder without pages, by its name and the words that say why.
export class PageFault extends Error {
  /**
   * @param {string} name
   * @param {string} key
   * @param {import("./types.js").Values} [values]
   */
  constructor(name, key, values = {}) {
    super(key);
    this.told = () => word("of", { name, why: word(key, values) });
  }
}

/** @type {(name: string, fault: TextFault) => PageFault} */
const pageFault = (name, { key, values }) => new PageFault(name, key, values);
/** @type {(name: string, status: number) => PageFault} */
const ended = (name, status) => pageFault(name, statusFault(status));

/**
 * Whether the first line of some bytes is a line of `changes`.
 * @param {Uint8Array} bytes
 */
export function isChanges(bytes) {
  const end = bytes.indexOf(0x0a);
  try {
    readChanges(textOf(end < 0 ? bytes : bytes.subarray(0, end)));
    return bytes.length > 0 && end !== 0;
  } catch (fault) {
    return false;
  }
}

/**
 * The text that the program writes for a page.
 * @param {WebAssembly.Module} module
 * @param {string} what
 * @param {Stored} file
 * @param {number} [number]
 */
async function put(module, what, file, number) {
  try {
    return wholeText(await ask(module, what, { page: file.bytes, number }));
  } catch (fault) {
    throw pageFault(file.name, fault instanceof TextFault ? fault : statusFault(NO_MEMORY));
  }
}

/**
 * @param {WebAssembly.Module} module
 * @param {Stored} file
 * @returns {Promise<Page>}
 */
export async function decoded(module, file) {
  // First the short text: it tells a page that is too long.
  const check = await put(module, "check", file);
  const changes = await put(module, "changes", file);
  const flash = await put(module, "flash", file, TURNS);
  const name = file.name.replace(PAGE, "");
  return { name, changes, check, flash: TURNED.test(flash) ? flash : null, page: file.bytes };
}

/**
 * The files by name, and by path where two have the same name.
 * @param {Found[]} files
 */
export function named(files) {
  /** @type {Map<string, number>} */
  const count = new Map();
  for (const { file } of files) count.set(file.name, (count.get(file.name) || 0) + 1);
  return files.map((one) => ({ file: one.file, name: count.get(one.file.name) === 1 ? one.file.name : one.path }));
}

/**
 * What each of some takings gives; the faults of the others go into a list.
 * @template S, T
 * @param {S[]} list
 * @param {PageFault[]} faults
 * @param {(one: S) => Promise<T>} take
 */
export async function givenOf(list, faults, take) {
  /** @type {T[]} */
  const found = [];
  for (const one of list) {
    try {
      found.push(await take(one));
    } catch (fault) {
      if (!(fault instanceof PageFault)) throw fault;
      faults.push(fault);
    }
  }
  return found;
}

/**
 * @param {{ file: File, name: string }} found
 * @returns {Promise<Stored>}
 */
export async function bytesOf({ file, name }) {
  try {
    return { name, bytes: new Uint8Array(await file.arrayBuffer()) };
  } catch (fault) {
    throw ended(name, UNREAD);
  }
}

/**
 * What stands in a folder, which is a handle, or an entry in a browser that has no handles.
 * @param {any} folder
 */
async function* childrenOf(folder) {
  if (folder.values) return yield* folder.values();
  const reader = folder.createReader();
  for (;;) {
    const some = await new Promise((done, fail) => reader.readEntries(done, fail));
    if (!some.length) return undefined;
    yield* some;
  }
}

/** @type {(one: any) => Promise<File>} */
const fileOf = (one) => (one.getFile ? one.getFile() : new Promise((done, fail) => one.file(done, fail)));

/**
 * The pages in a folder and in its folders: what ends in .btx, as `btx archive` takes them.
 * @param {any} folder
 * @param {string} path
 * @returns {AsyncGenerator<Found>}
 */
async function* pagesIn(folder, path) {
  for await (const one of childrenOf(folder)) {
    const place = `${path}/${one.name}`;
    if (one.kind === "directory" || one.isDirectory) yield* pagesIn(one, place);
    else if (PAGE.test(one.name)) yield { path: place, file: await fileOf(one) };
  }
}

/**
 * The pages of a folder in the order of their paths.
 * @param {string} name
 * @param {any} folder
 * @param {PageFault[]} faults
 */
async function opened(name, folder, faults) {
  /** @type {Found[]} */
  const found = [];
  try {
    for await (const page of pagesIn(await folder, name)) found.push(page);
    if (!found.length) faults.push(new PageFault(name, "noPages"));
  } catch (fault) {
    faults.push(ended(name, UNREAD));
  }
  return found.sort((one, other) => (one.path < other.path ? -1 : 1));
}

/**
 * The files of a drop or a paste. What can be a folder has to be asked for at once. From a file system a browser gives a file only as
 * itself and a folder only as a handle, where it has handles.
 * @param {DataTransfer} data
 * @param {PageFault[]} faults
 * @returns {Promise<Found[]>}
 */
export function handed(data, faults) {
  const lists = [...data.items].filter((item) => item.kind === "file").map((item) => {
    const entry = item.webkitGetAsEntry ? item.webkitGetAsEntry() : null;
    const file = item.getAsFile();
    const { getAsFileSystemHandle: handleOf } = /** @type {any} */ (item);
    if (!entry || !entry.isDirectory) return file ? [{ path: file.name, file }] : [];
    return opened(entry.name, handleOf ? handleOf.call(item) : entry, faults);
  });
  return Promise.all(lists).then((all) => all.flat());
}
