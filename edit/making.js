// How a script makes its screen: which cells each of its lines changed, and how they look after it, as the decoder told it.

/** @typedef {import("./types.js").Step} Step */

/**
 * What a line did: the word of an undo or a redo, or null for an edit; the cells that it changed with their looks, and the looks that these
 * had before. Of a line that did nothing there is none.
 * @typedef {Step & { word: string | null, before: number[] }} Done
 */

const WORDS = ["undo", "redo"];

export class Making {
  /**
   * The grid before the first line.
   * @param {Uint32Array} first
   */
  constructor(first) {
    // The grid after the last line.
    this.grid = first.slice();
    /**
     * What each line did, or null.
     * @type {(Done | null)[]}
     */
    this.done = [];
    /**
     * The numbers of the lines that undo or redo and had nothing to.
     * @type {number[]}
     */
    this.nothings = [];
  }

  // How many lines there are.
  get count() {
    return this.done.length;
  }

  /**
   * Takes what one line more of the program's grammar did, or null.
   * @param {string} line
   * @param {Step | null} step
   */
  add(line, step) {
    const word = WORDS.includes(line) ? line : null;
    if (!step && word) this.nothings.push(this.count + 1);
    this.done.push(step && { ...step, word, before: step.cells.map((cell) => this.grid[cell]) });
    if (step) step.cells.forEach((cell, at) => { this.grid[cell] = step.numbers[at]; });
  }

  // What the last line did, or null.
  last() {
    return this.done[this.count - 1] || null;
  }

  // Leaves out the last line.
  drop() {
    const done = this.done.pop();
    if (done) done.cells.forEach((cell, at) => { this.grid[cell] = done.before[at]; });
    if (this.nothings[this.nothings.length - 1] > this.count) this.nothings.pop();
  }

  /**
   * The cells that a line of the script changes.
   * @param {number} line
   * @returns {number[]}
   */
  cellsOf(line) {
    const done = this.done[line - 1];
    return done ? done.cells : [];
  }

  /**
   * The last line of the script, up to one, that changed a cell, or 0.
   * @param {number} cell
   * @param {number} lines
   * @returns {number}
   */
  lineOf(cell, lines) {
    let line = Math.min(lines, this.count);
    for (; line > 0; line--) {
      const done = this.done[line - 1];
      if (done && done.cells.includes(cell)) break;
    }
    return line;
  }

  /**
   * The grid after so many lines of the script.
   * @param {number} lines
   * @returns {Uint32Array}
   */
  after(lines) {
    const grid = this.grid.slice();
    for (let line = this.count; line > lines; line--) {
      const done = this.done[line - 1];
      if (done) done.cells.forEach((cell, at) => { grid[cell] = done.before[at]; });
    }
    return grid;
  }

  // The grid after the last line.
  end() {
    return this.grid;
  }

  /**
   * The places in the script of the edits that are kept, and of those that were undone and can be redone, the next one last.
   * @returns {{ kept: number[], undone: number[] }}
   */
  edits() {
    /** @type {[number[], number[]]} */
    const [kept, undone] = [[], []];
    this.done.forEach((done, index) => {
      if (!done) return;
      if (done.word === "undo") undone.push(...kept.splice(-1));
      else if (done.word === "redo") kept.push(...undone.splice(-1));
      else {
        kept.push(index);
        undone.length = 0;
      }
    });
    return { kept, undone };
  }
}
