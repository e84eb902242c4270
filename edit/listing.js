// The items of the stored page beside the screen: the one under way is marked, the screen is shown after each, and the page is cut there.
import { CELLS } from "./shared.js";
import { whatOf } from "./items.js";
import { word } from "./words.js";
import { button, make, part, say } from "./controls.js";

/** @typedef {import("./items.js").PageItems} PageItems */
/** @typedef {import("./types.js").Tell} Tell */
/** @typedef {{ sheet: import("./sheet.js").Sheet, asker: import("./ask.js").Asker }} Needs */

// In pixels; and how many rows more than those that are seen stand in the document on each side.
const ROW = 20;
const BESIDE = 12;

/** @type {(at: number) => string} */
const idOf = (at) => `item-${at}`;

export class Listing {
  /**
   * @param {Needs} needs
   * @param {Tell} tell
   */
  constructor(needs, tell) {
    this.needs = needs;
    this.tell = tell;
    /**
     * The items, once they are asked for.
     * @type {PageItems | null}
     */
    this.all = null;
    // After how many items the screen is shown; null is the end of page and script.
    /** @type {number | null} */
    this.step = null;
    // After how many items the page would be cut, and the item that made the cell under the caret or the mouse, or -1.
    this.at = 0;
    this.made = -1;
    this.list = part("items");
    this.rows = make("div", { id: "item-rows", role: "presentation" });
    this.buttons = [
      button("cutHere", () => this.cut(false), { name: "cutHereName", id: "cut-here" }),
      button("linesHere", () => this.cut(true), { name: "linesHereName", id: "lines-here" }),
    ];
    this.list.append(this.rows);
    part("items-bar").append(...this.buttons);
    this.join();
  }

  isOpen() {
    return part("items-part").open && this.needs.sheet.page.length > 0;
  }

  // The items of the page, which are asked for where they aren't known.
  items() {
    const { sheet, asker } = this.needs;
    this.all = this.all || asker.items(sheet.page, sheet.known);
    return this.all;
  }

  // Another page is there.
  forget() {
    this.all = null;
    this.step = null;
    [this.at, this.made] = [0, -1];
    part("items-part").hidden = !this.needs.sheet.page.length;
    this.list.scrollTop = 0;
    this.speak();
  }

  // Shows the screen to the end of page and script.
  toEnd() {
    if (this.step === null) return;
    this.step = null;
    this.show();
  }

  /**
   * The grid after the items up to which is shown.
   * @param {number} step
   */
  grid(step) {
    return this.items().grid(step, CELLS);
  }

  // The cells of the item that was reached last.
  outlined() {
    return this.step ? this.items().cellsOf(this.step - 1) : [];
  }

  /**
   * The item that made a cell, as the screen is shown, or -1 where a line of the script did.
   * @param {number} cell
   */
  makerOf(cell) {
    if (this.step !== null) return this.items().madeBy(cell, this.step);
    return this.needs.sheet.making.lineOf(cell, Infinity) ? -1 : this.items().madeBy(cell, Infinity);
  }

  /**
   * Marks the item that made the cell under the mouse, or else the one that was stepped to, or that made the cell under the caret.
   * @param {number} pointed
   * @param {number} caret
   */
  mark(pointed, caret) {
    if (!this.isOpen()) return;
    const made = pointed < 0 && this.step !== null ? this.step - 1 : this.makerOf(pointed < 0 ? caret : pointed);
    if (made === this.made) return;
    this.made = made;
    if (made >= 0 && document.activeElement !== this.list) this.reveal(made + 1);
    this.lay();
  }

  /**
   * Goes to the place after so many items, and shows the screen there.
   * @param {number} at
   */
  go(at) {
    this.at = this.step = Math.max(0, Math.min(this.items().items.length, at));
    this.made = this.step - 1;
    this.reveal(this.at);
    this.show();
    this.tell({ kind: "stepped" });
  }

  /** @param {boolean} makesLines */
  cut(makesLines) {
    this.tell({ kind: "cut", items: this.items(), count: this.at, makesLines });
  }

  /** @param {number} row */
  reveal(row) {
    const { scrollTop, clientHeight } = this.list;
    const top = row * ROW;
    if (top < scrollTop || top + ROW > scrollTop + clientHeight) this.list.scrollTop = Math.max(0, top - clientHeight / 2);
  }

  // The words of a place: the item before it.
  /** @param {number} at */
  wordsOf(at) {
    const { items } = this.items();
    if (!at) return word("itemsStart");
    const item = items[at - 1];
    return `${item.place} ${item.length} ${whatOf(item)}`;
  }

  show() {
    if (!this.isOpen()) return;
    const { items } = this.items();
    say("items-count", word("items", { items: items.length }));
    for (const one of this.buttons) one.disabled = this.step === null || this.at >= items.length;
    const words = word("itemsAfter", { number: this.at, items: items.length, what: this.wordsOf(this.at) });
    say("items-words", this.step === null ? word("itemsHint") : words);
    this.lay();
  }

  // Puts the rows that are seen into the document, with the one that is chosen.
  lay() {
    if (!this.isOpen()) return;
    const { items } = this.items();
    this.rows.style.height = `${(items.length + 1) * ROW}px`;
    const first = Math.max(0, Math.floor(this.list.scrollTop / ROW) - BESIDE);
    const end = Math.min(items.length + 1, Math.ceil((this.list.scrollTop + this.list.clientHeight) / ROW) + BESIDE);
    const seen = Array.from({ length: Math.max(0, end - first) }, (_, at) => first + at);
    if (!seen.includes(this.at)) seen.push(this.at);
    this.rows.replaceChildren(...seen.map((at) => {
      const row = make("div", {
        id: idOf(at), role: "option", "aria-selected": String(at === this.at), "aria-setsize": items.length + 1, "aria-posinset": at + 1,
        class: at && at - 1 === this.made ? "made" : "",
      }, this.wordsOf(at));
      row.style.top = `${at * ROW}px`;
      if (at && at - 1 === this.made) row.setAttribute("aria-current", "true");
      return row;
    }));
    this.list.setAttribute("aria-activedescendant", idOf(this.at));
  }

  speak() {
    say("items-count", word(this.all ? "items" : "itemsUnread", { items: this.all ? this.all.items.length : 0 }));
    this.show();
  }

  join() {
    part("items-part").addEventListener("toggle", () => {
      if (!this.isOpen()) {
        if (this.step === null) return;
        this.step = null;
        this.tell({ kind: "seen" });
        return;
      }
      this.show();
      this.tell({ kind: "moved" });
    });
    this.list.addEventListener("scroll", () => this.lay());
    this.list.addEventListener("pointerdown", (/** @type {PointerEvent} */ event) => {
      const top = this.list.getBoundingClientRect().top;
      this.go(Math.floor((event.clientY - top + this.list.scrollTop) / ROW));
    });
    this.list.addEventListener("keydown", (/** @type {KeyboardEvent} */ event) => {
      const page = Math.max(1, Math.floor(this.list.clientHeight / ROW) - 1);
      /** @type {Record<string, number>} */
      const steps = { ArrowUp: -1, ArrowDown: 1, PageUp: -page, PageDown: page, Home: -Infinity, End: Infinity };
      if (!steps[event.key] || event.ctrlKey || event.altKey || event.metaKey) return;
      event.preventDefault();
      this.go(this.at + steps[event.key]);
    });
  }
}
