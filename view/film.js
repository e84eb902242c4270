// The course of a page: the looks of all cells after each of its moments, forwards and back.
import { unicodeOf } from "./signs.js";
import { CELLS, COLUMNS, TextFault, readFlash } from "./text.js";

/** @typedef {import("./text.js").Course} Course */

export const BITS_OF_A_BYTE = 10;

/**
 * The numbers of the looks that all cells have after the last change line.
 * @param {{ cells: Uint16Array, numbers: Uint32Array, count: number }} course
 */
export function lastGrid({ cells, numbers, count }) {
  const grid = new Uint32Array(CELLS);
  for (let line = 0; line < count; line++) grid[cells[line]] = numbers[line];
  return grid;
}

/**
 * The grids of the six phases that a text of `flash` tells of the last grid. Cells that don't flash are in them as in it.
 * @param {Course} changes
 * @param {Uint32Array} last
 * @param {string} text
 */
function phasesOf(changes, last, text) {
  const phases = readFlash(text, changes.known);
  /** @param {number} number */
  const steady = (number) => changes.looks[number].flash === "S";
  if (!last.every((number, cell) => !steady(number) || phases.every((grid) => grid[cell] === number))) {
    throw new TextFault("otherFlash");
  }
  return phases;
}

export class Film {
  /**
   * `changes` as readChanges gives it; the bytes of the stored page, and the text of `flash`, where they are known.
   * @param {Course} changes
   * @param {Uint8Array | null} [bytes]
   * @param {string | null} [flash]
   */
  constructor(changes, bytes, flash) {
    this.changes = changes;
    this.bytes = bytes || null;
    this.end = lastGrid(changes);
    this.phases = typeof flash === "string" ? phasesOf(changes, this.end, flash) : null;
    this.moments = changes.moments;
    this.grid = new Uint32Array(CELLS);
    this.before = this.looksBefore();
    this.moment = 0;
    /** @type {number[][] | null} */
    this.times = null;
    const last = this.moments.length ? this.moments[this.moments.length - 1].place + 1 : 0;
    this.length = this.bytes ? Math.max(this.bytes.length, last) : last;
  }

  // For each change line the look that its cell had before.
  looksBefore() {
    const { cells, numbers, count } = this.changes;
    const [grid, before] = [new Uint32Array(CELLS), new Uint32Array(count)];
    for (let line = 0; line < count; line++) {
      before[line] = grid[cells[line]];
      grid[cells[line]] = numbers[line];
    }
    return before;
  }

  /**
   * The number of change lines of the first so many moments.
   * @param {number} moment
   */
  linesUpTo(moment) {
    return moment < this.moments.length ? this.moments[moment].first : this.changes.count;
  }

  // The first and the next line of the moment that was reached last.
  lastLines() {
    return this.moment ? [this.linesUpTo(this.moment - 1), this.linesUpTo(this.moment)] : [0, 0];
  }

  /**
   * Goes to the state after so many moments.
   * @param {number} moment
   */
  go(moment) {
    const to = Math.max(0, Math.min(moment, this.moments.length));
    const { cells, numbers } = this.changes;
    const [from, goal] = [this.linesUpTo(this.moment), this.linesUpTo(to)];
    for (let line = from; line < goal; line++) this.grid[cells[line]] = numbers[line];
    for (let line = from - 1; line >= goal; line--) this.grid[cells[line]] = this.before[line];
    this.moment = to;
  }

  // Whether the text of `flash` tells the phases now: it does so at the end.
  isTold() {
    return this.phases !== null && this.moment === this.moments.length;
  }

  // Whether something is told to change from phase to phase.
  isToldToFlash() {
    /** @type {Uint32Array[]} */
    const phases = this.phases || [];
    return phases.some((grid) => grid !== phases[0]);
  }

  /**
   * How many moments have come when so many bytes have: those with a lesser place.
   * @param {number} bytes
   */
  momentsWithin(bytes) {
    let [low, high] = [0, this.moments.length];
    while (low < high) {
      const middle = (low + high) >> 1;
      if (this.moments[middle].place < bytes) low = middle + 1;
      else high = middle;
    }
    return low;
  }

  // How many bytes had come when the moment that was reached last came.
  bytesCome() {
    return this.moment ? this.moments[this.moment - 1].place + 1 : 0;
  }

  /**
   * The number of the last change line up to now that changed a cell, or -1.
   * @param {number} cell
   */
  lineOf(cell) {
    for (let line = this.linesUpTo(this.moment) - 1; line >= 0; line--) {
      if (this.changes.cells[line] === cell) return line;
    }
    return -1;
  }

  /**
   * The moment that a change line belongs to.
   * @param {number} line
   */
  momentOf(line) {
    let [low, high] = [0, this.moments.length];
    while (high - low > 1) {
      const middle = (low + high) >> 1;
      if (this.moments[middle].first <= line) low = middle;
      else high = middle;
    }
    return low;
  }

  /**
   * The bytes from the place of a moment up to that of the next, or to the end; null where the page isn't known.
   * @param {number} moment
   */
  bytesOf(moment) {
    if (!this.bytes) return null;
    const next = moment + 1 < this.moments.length ? this.moments[moment + 1].place : this.bytes.length;
    return this.bytes.subarray(this.moments[moment].place, next);
  }
}

/**
 * The rows as `show` puts them: a space for a concealed sign and for each further cell of a large one.
 * @param {import("./types.js").Cells} shown
 * @param {boolean} revealed
 */
export function textOfRows({ looks, grid }, revealed) {
  let text = "";
  grid.forEach((number, cell) => {
    const look = looks[number];
    const empty = look.kind === "space" || (look.concealed && !revealed) || look.down || look.right;
    text += empty ? " " : unicodeOf(look);
    if (cell % COLUMNS === COLUMNS - 1) text += "\n";
  });
  return text;
}
