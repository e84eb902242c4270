// What is opened and what is kept: files, and what the browser's storage has.
import { TABLES, word } from "./words.js";
import { STATUS } from "./statuses.js";
import { textOf } from "./ask.js";
import { AskFault } from "./faults.js";
import { isDrawing } from "./grammar.js";
import { Store, isBegun, toLetters } from "./store.js";
import { asLines } from "./sheet.js";
import { part } from "./controls.js";
import { isLongDrawing } from "./drawing.js";

/** @typedef {import("./types.js").Tell} Tell */

/**
 * The script, the program, the cuts of the page, whether lines can be added, and a picture of the page; what is drawn or painted and isn't
 * in the script yet, and what makes it lines, where that can be.
 * @typedef {{
 *   sheet: import("./sheet.js").Sheet, asker: import("./ask.js").Asker, cuts: import("./cuts.js").Cuts, ready: () => boolean,
 *   still: () => HTMLCanvasElement, underWay: () => import("./store.js").UnderWay, finish: () => void,
 * }} Needs
 */

const ENDING = /\.(btx|script|txt)$/i;
const IS_PAGE = /\.btx$/i;
const IS_SCRIPT = /\.(script|txt)$/i;
const IS_DRAWING = /\.drawing$/i;
// Each phase of the flash once, and back to the first.
const TURNS = 6;
// So many bytes the program takes of a page.
const MOST_PAGE = 2 ** 24;

/**
 * A file that is opened: what it is, and its text where it is no page; of a closed one, which isn't opened, the text says why.
 * @typedef {{ name: string, kind: "page" | "script" | "drawing" | "closed", text: string, file: File }} Opened
 */

/**
 * What a file is by its name; one that is named as a script is a drawing where its first word is one of drawings.
 * @param {string} name
 * @param {string} text
 */
export function kindOfFile(name, text) {
  if (IS_DRAWING.test(name)) return "drawing";
  if (!IS_SCRIPT.test(name)) return "page";
  return isDrawing(text) ? "drawing" : "script";
}

/**
 * The first script, page and drawing of some files; the rest isn't opened.
 * @template {{ kind: string }} F
 * @param {F[]} files
 * @returns {{ script: F | undefined, page: F | undefined, drawing: F | undefined, rest: F[] }}
 */
export function sortedFiles(files) {
  const [script, page, drawing] = ["script", "page", "drawing"].map((kind) => files.find((file) => file.kind === kind));
  return { script, page, drawing, rest: files.filter((file) => ![script, page, drawing].includes(file)) };
}

/**
 * What is to be said of files by their names: of a page that isn't named as one, and of what isn't opened.
 * @param {string | null} page
 * @param {string[]} rest
 */
export function remarksOn(page, rest) {
  const taken = page && !IS_PAGE.test(page) ? word("takenAsPage", { name: page }) : "";
  return [taken, rest.length ? word("leftOut", { names: rest.join(", ") }) : ""].filter((said) => said).join(" ");
}

/**
 * The text of a file, or null where it isn't in UTF-8.
 * @param {File} file
 */
async function textIn(file) {
  const bytes = await file.arrayBuffer();
  try {
    return new TextDecoder("utf-8", { fatal: true }).decode(bytes).replace(/\r\n?/g, "\n");
  } catch {
    return null;
  }
}

/**
 * A file with what it is.
 * @param {File} file
 * @returns {Promise<Opened>}
 */
async function opened(file) {
  const { name } = file;
  const text = kindOfFile(name, "") === "page" ? "" : await textIn(file);
  if (text === null) return { name, kind: "closed", text: word("notUtf8", { name }), file };
  return { name, kind: kindOfFile(name, text), text, file };
}

/**
 * A file's name with another ending.
 * @param {string} name
 * @param {string} ending
 */
export const withEnding = (name, ending) => name.replace(ENDING, "") + ending;

/**
 * One file with the viewer and a page in it: the viewer's document before and after the data of its pages, and the data of one.
 * @param {[string, string]} halves
 * @param {Record<string, string | undefined>} data
 * @returns {string}
 */
export function documentOf([head, tail], data) {
  /** @type {(sign: string) => string} */
  const escaped = (sign) => `\\u${sign.charCodeAt(0).toString(16).padStart(4, "0")}`;
  return head + JSON.stringify([data]).replace(/[\u007f-\uffff<]/g, escaped) + tail;
}

/**
 * What is kept of a page that is new, or was opened with a script.
 * @param {string} name
 * @param {Uint8Array} page
 * @param {string} script
 * @returns {import("./store.js").Kept}
 */
export const savedOf = (name, page, script) => (
  { name, page, cuts: [], script, saved: script, isOther: false, drawing: "", painted: null }
);

export class Keep {
  /**
   * @param {Needs} needs
   * @param {Tell} tell
   */
  constructor(needs, tell) {
    this.needs = needs;
    this.tell = tell;
    this.files = new Store(() => localStorage, navigator.locks, () => sessionStorage);
    this.name = "";
    // The script that was saved last, and the stored page that stood under it; null where that isn't known.
    this.saved = "";
    /** @type {Uint8Array | null} */
    this.savedPage = null;
    // Whether the storage kept what was put into it last.
    this.stores = true;
    this.join();
  }

  // Whether something would be lost.
  isUnsaved() {
    return this.needs.sheet.script() !== this.saved || this.isOther() || isBegun(this.needs.underWay());
  }

  // Whether the stored page is another than the one of which the script was saved.
  isOther() {
    return this.needs.sheet.page !== this.savedPage;
  }

  shownName() {
    return this.name || word("unnamed");
  }

  /**
   * @param {string} text
   * @param {boolean} [isFault]
   */
  say(text, isFault = false) {
    this.tell({ kind: "said", text, isFault });
  }

  /**
   * Keeps the script in the storage, and the page with its cuts where it is another. Once nothing more is kept that is said.
   * @param {boolean} pageToo
   */
  store(pageToo) {
    const { sheet, cuts, underWay } = this.needs;
    const { name, saved } = this;
    const kept = { name, page: sheet.page, cuts: cuts.stored(), script: sheet.script(), saved, isOther: this.isOther(), ...underWay() };
    const stored = this.stores;
    this.stores = this.files.put(kept, pageToo);
    if (stored && !this.stores) this.tell({ kind: "said", text: word("notKept"), lasts: true });
  }

  // What an editor that was open before left unsaved, or null.
  stored() {
    return this.files.taken();
  }

  /**
   * Takes a page that is new, or was opened, or comes from the storage.
   * @param {import("./store.js").Kept} kept
   */
  take(kept) {
    const { name, page, saved, isOther } = kept;
    this.tell({ kind: "taken", kept });
    this.name = name;
    this.saved = asLines(saved);
    this.savedPage = isOther ? null : page;
    this.store(true);
    this.tell({ kind: "named" });
  }

  /**
   * @param {string} ending
   * @param {Blob | Uint8Array | string} data
   */
  download(ending, data) {
    const link = document.createElement("a");
    link.href = URL.createObjectURL(data instanceof Blob ? data : new Blob([data]));
    link.download = withEnding(this.name || word("fileName"), ending);
    link.click();
    setTimeout(() => URL.revokeObjectURL(link.href), 1000);
    this.say(word(isBegun(this.needs.underWay()) ? "savedWithout" : "saved", { name: link.download }));
  }

  // The page as the program puts it for the stored page and the whole script.
  keepPage() {
    if (!this.needs.ready()) return;
    this.needs.finish();
    this.download(".btx", this.needs.sheet.edited());
    this.savedPage = this.needs.sheet.page;
    this.settle();
  }

  keepScript() {
    this.needs.finish();
    this.download(".txt", this.needs.sheet.script());
    this.settle();
  }

  settle() {
    this.saved = this.needs.sheet.script();
    this.store(false);
    this.tell({ kind: "named" });
  }

  keepPicture() {
    this.needs.finish();
    this.needs.still().toBlob((blob) => blob && this.download(".png", blob));
  }

  // One file with the viewer and the page in it, as `btx html` writes it.
  keepHtml() {
    if (!this.needs.ready()) return;
    this.needs.finish();
    const { asker, sheet } = this.needs;
    const page = sheet.edited();
    /** @type {(name: string, more?: import("./types.js").Things) => string} */
    const text = (name, more) => textOf(asker.put(name, { page, ...more }));
    const flash = text("flash", { number: TURNS });
    const name = withEnding(this.shownName(), "");
    const told = /^[1-9]/m.test(flash) ? { flash } : {};
    const data = { name, changes: text("changes"), check: text("check"), ...told, page: toLetters(page) };
    this.download(".html", documentOf(JSON.parse(part("viewer").textContent), data));
  }

  /**
   * What is said where the program ended without an answer, or a file can't be read.
   * @param {unknown} fault
   * @param {string} name
   */
  endOf(fault, name) {
    const status = fault instanceof AskFault ? fault.status : STATUS.UNREAD;
    return word(TABLES.en[`ended${status}`] ? `ended${status}` : "ended", { name, status });
  }

  // Asks about a page that isn't saved before it is left.
  async mayLeave() {
    if (!this.isUnsaved()) return true;
    const dialog = part("unsaved");
    const answer = await new Promise((done) => {
      for (const kind of ["keep", "leave", "stay"]) part(`unsaved-${kind}`).onclick = () => done(kind);
      dialog.oncancel = () => done("stay");
      dialog.showModal();
    });
    dialog.close();
    if (answer === "keep") this.keepPage();
    return answer !== "stay" && (answer === "leave" || !this.isUnsaved());
  }

  async blank() {
    if (await this.mayLeave()) this.take(savedOf("", new Uint8Array(), ""));
  }

  /**
   * Opens files: a page, a script for the page that is open, or both; and a drawing, which is drawn on it.
   * @param {Iterable<File>} list
   */
  async open(list) {
    const files = [...list];
    let name = files.length ? files[0].name : "";
    try {
      const all = await Promise.all(files.map(opened));
      const closed = all.filter((file) => file.kind === "closed");
      const { script, page, drawing, rest } = sortedFiles(all.filter((file) => file.kind !== "closed"));
      const first = page || script || drawing || { name };
      const remarks = [...closed.map((file) => file.text), remarksOn(page ? page.name : null, rest.map((file) => file.name))];
      const said = remarks.filter((remark) => remark).join(" ");
      name = first.name;
      const bytes = page ? new Uint8Array(await page.file.arrayBuffer()) : this.needs.sheet.page;
      if (drawing && isLongDrawing(drawing.text)) {
        name = drawing.name;
        throw new AskFault("plot", STATUS.TOO_LONG);
      }
      name = this.shownName();
      if ((page || script) && !(await this.mayLeave())) return;
      // Where it isn't the page that is too long it is the script.
      name = script && bytes.length <= MOST_PAGE ? script.name : first.name;
      if (page || script) this.take(savedOf(page ? page.name : this.name || name, bytes, script ? script.text : ""));
      name = drawing ? drawing.name : name;
      if (drawing) this.tell({ kind: "figures", text: drawing.text });
      if (said) this.say(said, closed.length > 0);
    } catch (fault) {
      this.say(this.endOf(fault, name), true);
    }
  }

  join() {
    /** @type {(id: string, kind: string, act: () => void) => void} */
    const on = (id, kind, act) => part(id).addEventListener(kind, act);
    on("new", "click", () => this.blank());
    on("open", "click", () => part("file").click());
    on("file", "change", async () => {
      await this.open(part("file").files);
      part("file").value = "";
    });
    on("keep-page", "click", () => this.keepPage());
    on("keep-script", "click", () => this.keepScript());
    on("keep-picture", "click", () => this.keepPicture());
    on("keep-html", "click", () => this.keepHtml());
    window.addEventListener("beforeunload", (event) => {
      if (this.isUnsaved()) event.preventDefault();
    });
    // A text is dragged as the browser does it.
    /** @type {(event: DragEvent) => boolean} */
    const hasFiles = (event) => event.dataTransfer !== null && event.dataTransfer.types.includes("Files");
    document.addEventListener("dragover", (event) => {
      if (!hasFiles(event)) return;
      event.preventDefault();
      document.body.classList.add("dropping");
    });
    document.addEventListener("dragleave", () => document.body.classList.remove("dropping"));
    document.addEventListener("drop", (event) => {
      if (!hasFiles(event)) return;
      event.preventDefault();
      document.body.classList.remove("dropping");
      if (event.dataTransfer) this.open(event.dataTransfer.files);
    });
  }
}
