// The state of the editor: a stored page, a script, and nothing else. The script's lines are made one by one on the page under way, and how
// each changed the screen is kept. Where other lines take the place of some, those are taken back before; what can't be taken back is made
// anew from the stored page.
import { Looks } from "./shared.js";
import { AskFault, BadLine } from "./faults.js";
import { Making } from "./making.js";
import { inGrammar, isNoteOn, sameBytes } from "./lines.js";
import { STATUS } from "./statuses.js";

/** @typedef {import("./ask.js").Asker} Asker */
/** @typedef {import("./making.js").Done} Done */
/** @typedef {import("./types.js").Check} Check */

// Control defaults with the parallel set.
const START = "raw 1F2F44";
// The lines of an action that may stand before the one that says where it begins.
const PLACELESS = [START, "parallel", "serial"];
const AT = /^at (\d+) (\d+)$/;
// The bytes of the longest script.
const LONGEST = 2 ** 20;
// Page and script of so many signs are made anew within the time of a frame.
const SHORT = 20000;

// So many edits can be undone, as docs/cept_tool.1 has it.
export const KEPT = 64;

/**
 * @param {string} line
 * @returns {boolean}
 */
export const isEdit = (line) => /^[^#]/.test(inGrammar(line));
/**
 * @param {string[]} lines
 * @returns {string}
 */
const textOf = (lines) => lines.map((line) => `${line}\n`).join("");
/**
 * The lines of a script, of which the last needs no line feed.
 * @param {string} script
 * @returns {string[]}
 */
function linesOf(script) {
  const lines = script.split("\n");
  return lines[lines.length - 1] === "" ? lines.slice(0, -1) : lines;
}
/**
 * A script with a line feed behind each line, as the sheet has it.
 * @param {string} script
 * @returns {string}
 */
export const asLines = (script) => textOf(linesOf(script));
/**
 * Whether a text has more bytes than a script may have.
 * @param {string} text
 */
export const isTooLong = (text) => text.length > LONGEST || (3 * text.length > LONGEST && new TextEncoder().encode(text).length > LONGEST);

export class Sheet {
  /** @param {Asker} asker */
  constructor(asker) {
    this.asker = asker;
    this.page = new Uint8Array();
    /** @type {string[]} */
    this.lines = [];
    this.text = "";
    /** @type {import("./types.js").Looks} */
    this.known = new Looks();
    // What is refused in the page, and its screen.
    /** @type {Check} */
    this.check = { refusals: [], items: 0, refused: 0 };
    this.first = new Uint32Array();
    // The page under way, with the lines up to the first bad one, and how these made the screen.
    this.live = asker.live(this.page, this.known);
    this.making = new Making(this.first);
    // Whether what the page under way could redo isn't what the script could, and by how many edits it can undo less.
    this.isAside = false;
    this.less = 0;
    /** @type {BadLine | null} */
    this.fault = null;
    /** @type {{ text: string, page: Uint8Array, bytes: Uint8Array } | null} */
    this.memory = null;
    this.open(this.page, "");
  }

  /**
   * Takes a stored page and a script. Where one of them is too long what was there before stays.
   * @param {Uint8Array} page
   * @param {string} script
   */
  open(page, script) {
    if (isTooLong(asLines(script))) throw new AskFault("edit", STATUS.TOO_LONG);
    const [check, known] = [this.asker.check(page), new Looks()];
    const live = this.asker.live(page, known);
    this.live.close();
    [this.page, this.check, this.known, this.live, this.first] = [page, check, known, live, live.grid()];
    this.making = new Making(this.first);
    [this.isAside, this.less, this.lines, this.text] = [false, 0, [], ""];
    this.setScript(script);
  }

  /**
   * Takes another script for the page, as after a change by hand.
   * @param {string} script
   */
  setScript(script) {
    const lines = linesOf(script);
    let same = 0;
    while (same < lines.length && lines[same] === this.lines[same]) same++;
    this.change(same, lines.slice(same));
  }

  /**
   * Puts other lines in the place of those after the first so many.
   * @param {number} from
   * @param {string[]} lines
   */
  change(from, lines) {
    const all = [...this.lines.slice(0, from), ...lines];
    const gone = textOf(this.lines.slice(from)).length;
    const text = this.text.slice(0, this.text.length - gone) + textOf(lines);
    if (isTooLong(text)) throw new AskFault("edit", STATUS.TOO_LONG);
    this.back(from);
    [this.lines, this.text] = [all, text];
    this.goOn();
  }

  // Makes the lines that aren't made yet, up to the first bad one.
  goOn() {
    this.fault = null;
    while (this.fault === null && this.making.count < this.lines.length) this.makeNext();
  }

  makeNext() {
    const line = inGrammar(this.lines[this.making.count]);
    if ((line === "redo" && this.isAside) || (line === "undo" && this.less && !this.live.kept())) this.makeAnew();
    try {
      this.making.add(line, this.live.line(line));
    } catch (fault) {
      if (!(fault instanceof BadLine)) throw fault;
      this.fault = fault.after(this.making.count);
      return;
    }
    const done = this.making.last();
    if (!done || done.word) return;
    [this.isAside, this.less] = [false, Math.max(0, this.less - 1)];
  }

  /**
   * Goes back to the first so many lines.
   * @param {number} count
   */
  back(count) {
    let near = true;
    while (this.making.count > count) {
      near = near && this.takeBack(this.making.last());
      this.making.drop();
    }
    if (!near) this.makeAnew();
  }

  /**
   * Takes back what the last line did: an edit that was redone too by an undo, and an undo by a redo. Answers whether that can be.
   * @param {Done | null} done
   */
  takeBack(done) {
    if (!done) return true;
    const word = done.word === "undo" ? "redo" : "undo";
    if (word === "redo" ? this.isAside : !this.live.kept()) return false;
    this.live.line(word);
    if (!done.word) [this.isAside, this.less] = [true, this.less + 1];
    return true;
  }

  // Makes the lines that were made anew, from the stored page.
  makeAnew() {
    this.live.close();
    this.live = this.asker.live(this.page, this.known);
    this.live.makeAgain(this.good.map(inGrammar));
    [this.isAside, this.less] = [false, 0];
  }

  // The lines that are made: all up to the first bad one.
  get good() {
    return this.lines.slice(0, this.making.count);
  }

  // Whether making all anew may take longer than a frame.
  isLong() {
    return this.page.length + this.text.length > SHORT;
  }

  script() {
    return this.text;
  }

  // The cell where the program would write next.
  get at() {
    return this.live.state().at;
  }

  // How many rows the format has.
  get rows() {
    return this.live.state().rows;
  }

  /**
   * What `edit` puts for page and script.
   * @returns {Uint8Array}
   */
  edited() {
    const text = textOf(this.good);
    if (!this.memory || this.memory.text !== text || this.memory.page !== this.page) {
      this.memory = { text, page: this.page, bytes: this.asker.edit(this.page, textOf(this.good.map(inGrammar))) };
    }
    return this.memory.bytes;
  }

  // The numbers of the lines whose edits are kept.
  kept() {
    return this.making.edits().kept;
  }

  // Whether lines that are added begin with the one that sets control back: the first on a page that was there.
  needsStart() {
    return this.page.length > 0 && !this.kept().length;
  }

  /**
   * The C1 set and the line of the table in force where the next action begins; null before one that begins by setting control back.
   * @returns {{ set: string | null, table: string | null }}
   */
  inForce() {
    return this.needsStart() ? { set: null, table: null } : this.live.state();
  }

  /**
   * Adds an action: its lines, after an empty one, or lines with which the last action goes on. Answers the number of lines before them.
   * @param {string[]} lines
   * @param {boolean} [goesOn]
   */
  add(lines, goesOn = false) {
    const paragraph = !goesOn && this.lines.length && this.lines[this.lines.length - 1] !== "" ? [""] : [];
    this.change(this.lines.length, [...paragraph, ...(this.needsStart() ? [START] : []), ...lines]);
    return this.lines.length - lines.length;
  }

  /**
   * The first line of the action that a line belongs to, and the line after its last.
   * @param {number} index
   * @returns {[number, number]}
   */
  actionOf(index) {
    const end = this.lines.indexOf("", index);
    return [this.lines.lastIndexOf("", index) + 1, end < 0 ? this.lines.length : end];
  }

  /**
   * The places in the script of the edits of the last action, the last one first: of those that are kept, or of those that were undone.
   * @param {"undo" | "redo"} word
   */
  lastOf(word) {
    const { kept, undone } = this.making.edits();
    const stack = (word === "undo" ? kept : undone).reverse();
    const [first, end] = stack.length ? this.actionOf(stack[0]) : [0, 0];
    const other = stack.findIndex((index) => index < first || index >= end);
    return other < 0 ? stack : stack.slice(0, other);
  }

  /**
   * Where the action began that would be undone next, by its first line, that of a set left out; null where that says no place.
   * @returns {[number, number] | null}
   */
  beginning() {
    const edits = this.lastOf("undo").map((index) => inGrammar(this.lines[index])).filter((line) => !PLACELESS.includes(line));
    const [, row, column] = AT.exec(edits.pop() || "") || [];
    return row ? [Number(row), Number(column)] : null;
  }

  /**
   * How many edits the action has that would be undone next, or redone, and how many of them the program keeps.
   * @param {"undo" | "redo"} word
   */
  reach(word) {
    const count = this.lastOf(word).length;
    if (count && (word === "undo" ? this.less && this.live.kept() < count : this.isAside)) this.makeAnew();
    return { count, most: Math.min(count, word === "undo" ? this.live.kept() : this.live.undone()) };
  }

  /**
   * Takes the last action back, or makes the one that was undone last again: by a line for each of its edits. Answers whether there
   * was one that the program keeps.
   * @param {"undo" | "redo"} word
   */
  undoRedo(word) {
    const { most } = this.reach(word);
    const paragraph = this.lines[this.lines.length - 1] !== "" ? [""] : [];
    if (most) this.change(this.lines.length, [...paragraph, ...Array(most).fill(word)]);
    return most > 0;
  }

  // The lines of kept edits, and all comments but what the editor itself put before the others.
  tidied() {
    const kept = new Set(this.kept());
    /** @type {string[]} */
    const left = [];
    /** @type {{ line: string, index: number }[]} */
    let action = [];
    const close = () => {
      /** @type {(index: number) => boolean} */
      const goes = (index) => isEdit(this.lines[index] || "") && !kept.has(index);
      const stays = action.filter(({ line, index }) => !goes(index) && !(goes(index + 1) && isNoteOn(line, this.lines[index + 1])));
      left.push(...stays.map(({ line }) => line));
      action = [];
    };
    this.lines.forEach((line, index) => {
      if (line !== "") action.push({ line, index });
      if (line === "" || index === this.lines.length - 1) close();
      if (line === "" && left.length && left[left.length - 1] !== "") left.push("");
    });
    return textOf(left[left.length - 1] === "" ? left.slice(0, -1) : left);
  }

  // Takes undone edits and what undid them out of the script. Answers whether the program puts the same page for it; else it stays.
  tidy() {
    const [before, page] = [this.script(), this.edited()];
    this.setScript(this.tidied());
    const same = this.fault === null && sameBytes(this.edited(), page);
    if (!same) this.setScript(before);
    return same;
  }
}
