// Cuts of the stored page: after an item, with or without lines of the script that do what is behind it. What stood before each is kept, so that a
// cut is undone and redone as other actions are.
import { linesAfter } from "./items.js";

/** @typedef {import("./items.js").PageItems} PageItems */
/** @typedef {{ page: Uint8Array, script: string }} State */

/**
 * A cut: page and script before it, the page after it, and the edits that were kept right after it, by their lines; once it is undone those
 * that are kept then, and what was after it.
 * @typedef {{ before: State, page: Uint8Array, kept: string, keptBefore: string, after: State | null }} Cut
 */

/** @typedef {{ page: Uint8Array, script: string, kept: string }} Stored */

export class Cuts {
  /**
   * @param {{ sheet: import("./sheet.js").Sheet, asker: import("./ask.js").Asker }} needs
   */
  constructor(needs) {
    this.needs = needs;
    /** @type {Cut[]} */
    this.done = [];
    /** @type {Cut[]} */
    this.undone = [];
  }

  // The lines of the edits that are kept.
  kept() {
    const { sheet } = this.needs;
    return sheet.kept().map((index) => sheet.lines[index]).join("\n");
  }

  /** @returns {State} */
  state() {
    const { sheet } = this.needs;
    return { page: sheet.page, script: sheet.script() };
  }

  /**
   * Cuts the page after so many items, with a script.
   * @param {PageItems} items
   * @param {number} count
   * @param {string} script
   */
  cut(items, count, script) {
    const { sheet } = this.needs;
    const before = this.state();
    try {
      sheet.open(before.page.slice(0, items.bytesOf(count)), script);
    } catch (fault) {
      sheet.open(before.page, before.script);
      throw fault;
    }
    this.done.push({ before, page: sheet.page, kept: this.kept(), keptBefore: "", after: null });
    this.undone = [];
  }

  /**
   * Cuts the page after so many items, or a few before where these need it, and makes lines of what is behind, before those of the script.
   * Answers how many items became lines; null where all of it would show something else, and nothing is done.
   * @param {PageItems} items
   * @param {number} count
   * @returns {{ items: number, lines: number } | null}
   */
  makeLines(items, count) {
    const { sheet, asker } = this.needs;
    const { undone } = this;
    const shown = asker.cells(sheet.edited());
    const { nothings } = sheet.making;
    const old = sheet.lines.filter((_, index) => !nothings.includes(index + 1));
    for (const inWords of [true, false]) {
      const found = linesAfter(items, count, asker, inWords);
      if (!found) continue;
      const script = [...found.lines, ...(found.lines.length && old.length ? [""] : []), ...old].map((line) => `${line}\n`).join("");
      this.cut(items, found.count, script);
      if (sheet.fault === null && asker.cells(sheet.edited()) === shown) return { items: items.items.length - found.count, lines: found.lines.length };
      this.undo();
      this.undone = undone;
    }
    return null;
  }

  /**
   * Takes the last cut back, or makes the one that was undone last again, where it is what was done last. Answers whether it was.
   * @param {"undo" | "redo"} word
   */
  undoRedo(word) {
    return word === "undo" ? this.undo() : this.redo();
  }

  undo() {
    const { sheet } = this.needs;
    const last = this.done[this.done.length - 1];
    if (!last || sheet.page !== last.page || this.kept() !== last.kept) return false;
    last.after = this.state();
    sheet.open(last.before.page, last.before.script);
    last.keptBefore = this.kept();
    this.undone.push(...this.done.splice(-1));
    return true;
  }

  redo() {
    const { sheet } = this.needs;
    const next = this.undone[this.undone.length - 1];
    if (!next || !next.after || sheet.page !== next.before.page || this.kept() !== next.keptBefore) return false;
    if (sheet.making.edits().undone.length) return false;
    next.before = this.state();
    sheet.open(next.after.page, next.after.script);
    this.done.push(...this.undone.splice(-1));
    return true;
  }

  /**
   * Takes the cuts of a page that was stored; none of one that is opened.
   * @param {Stored[]} [stored]
   */
  take(stored = []) {
    const pages = [...stored.slice(1).map(({ page }) => page), this.needs.sheet.page];
    this.done = stored.map(({ page, script, kept }, at) => ({ before: { page, script }, page: pages[at], kept, keptBefore: "", after: null }));
    this.undone = [];
  }

  /**
   * What is stored of the cuts that weren't undone.
   * @returns {Stored[]}
   */
  stored() {
    return this.done.map(({ before: { page, script }, kept }) => ({ page, script, kept }));
  }
}
