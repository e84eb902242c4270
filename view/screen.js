// The canvas: it keeps which look each cell shows, and paints a cell only where that differs from what it is to show.
import { DOTS, appearance, foreOf, phaseSeen, seenText } from "./dots.js";
import { Painter } from "./paint.js";
import { CELLS, COLUMNS, ROWS } from "./text.js";

/** @typedef {import("./types.js").Look} Look */
/** @typedef {import("./film.js").Film} Film */

const NEVER = 0xffffffff;
export const TALL = 1.25;

export class Screen {
  /**
   * The lower canvas has the page, the upper one the outlines.
   * @param {HTMLCanvasElement} page
   * @param {HTMLCanvasElement} outlines
   */
  constructor(page, outlines) {
    this.page = page;
    this.outlines = outlines;
    this.shown = new Uint32Array(CELLS).fill(NEVER);
    /** @type {Look[]} */
    this.looks = [];
    /**
     * Which of the six phases is shown; where it is null each flashing sign is shown as it is seen.
     * @type {number | null}
     */
    this.phase = 0;
    this.revealed = false;
    this.font = false;
    this.told = false;
    this.painted = 0;
    this.asked = 0;
    this.ratio = 0;
    this.shrink = 1;
    this.cellWidth = 0;
    this.cellHeight = 0;
    /** @type {Painter | null} */
    this.painter = null;
  }

  /**
   * Lays the canvases out with cells of so many pixels of the display, and forgets what was painted. Four dots have whole pixels, so that
   * stems are alike; cells with fewer pixels than dots are painted larger, and made smaller by the browser.
   * @param {number} asked
   * @param {number} ratio
   */
  lay(asked, ratio) {
    const { WIDTH } = DOTS;
    const width = asked < WIDTH ? WIDTH : asked - (asked % (WIDTH / 4));
    const height = Math.round(width * TALL);
    this.asked = asked;
    this.ratio = ratio;
    this.shrink = Math.min(1, asked / WIDTH);
    for (const canvas of [this.page, this.outlines]) {
      canvas.width = width * COLUMNS;
      canvas.height = height * ROWS;
      canvas.style.width = `${(canvas.width * this.shrink) / ratio}px`;
      canvas.style.height = `${(canvas.height * this.shrink) / ratio}px`;
    }
    this.cellWidth = width;
    this.cellHeight = height;
    this.painter = new Painter(this.page, width, height, this.font);
    this.forget();
  }

  forget() {
    this.told = false;
    this.shown.fill(NEVER);
  }

  /** @param {number} cell */
  placeOf(cell) {
    return [(cell % COLUMNS) * this.cellWidth, Math.floor(cell / COLUMNS) * this.cellHeight];
  }

  /**
   * The phase in which a look is painted.
   * @param {Look} look
   * @param {number | null} [phase]
   */
  phaseOf(look, phase = this.phase) {
    return phase === null ? phaseSeen(look) : phase;
  }

  /**
   * @param {number} cell
   * @param {number} number
   */
  paint(cell, number) {
    const [x, y] = this.placeOf(cell);
    const look = this.looks[number];
    if (this.painter) this.painter.cell(look, x, y, this.phaseOf(look), this.revealed);
    this.shown[cell] = number;
    this.painted++;
  }

  /**
   * Shows the looks of a grid, by their numbers; answers how many cells it painted.
   * @param {Uint32Array} grid
   */
  show(grid) {
    const before = this.painted;
    for (let cell = 0; cell < grid.length; cell++) {
      if (this.shown[cell] !== grid[cell]) this.paint(cell, grid[cell]);
    }
    return this.painted - before;
  }

  /**
   * The same where a cell may have been painted by another number that is seen alike, as a flashing look and the steady one that
   * is told of its phase.
   * @param {Uint32Array} grid
   */
  exchange(grid) {
    /** @param {number} number */
    const seen = (number) => seenText(this.looks[number], this.phaseOf(this.looks[number]));
    for (let cell = 0; cell < grid.length; cell++) {
      const number = this.shown[cell];
      if (number !== NEVER && number !== grid[cell] && seen(number) === seen(grid[cell])) this.shown[cell] = grid[cell];
    }
    this.show(grid);
  }

  /**
   * Shows what a film has come to: what its commands made of the cells, and at its end, where phases are told, the one of now.
   * @param {Film} film
   */
  showFilm(film) {
    const told = film.phases && film.isTold() && this.phase !== null ? film.phases[this.phase] : null;
    if (this.told && !told) this.exchange(film.end);
    if (!this.told || !told) this.show(film.grid);
    if (told) this.exchange(told);
    this.told = told !== null;
  }

  /**
   * Goes to a phase of the flash, or reveals; repaints the cells that look otherwise by it.
   * @param {number | null} phase
   * @param {boolean} revealed
   */
  turn(phase, revealed) {
    /** @type {(look: Look, asked: number | null, all: boolean) => string} */
    const shown = (look, asked, all) => {
      const now = this.phaseOf(look, asked);
      // The frame of a sign is in its foreground, also where the sign isn't seen.
      return `${appearance(look, now, all)}${look.boxed ? foreOf(look, now) : ""}`;
    };
    /** @type {number[]} */
    const changed = [];
    this.shown.forEach((number, cell) => {
      if (number === NEVER) return;
      const look = this.looks[number];
      if (look.flash === "S" && !look.concealed) return;
      if (shown(look, phase, revealed) !== shown(look, this.phase, this.revealed)) changed.push(cell);
    });
    this.phase = phase;
    this.revealed = revealed;
    changed.forEach((cell) => this.paint(cell, this.shown[cell]));
    return changed.length;
  }

  flashes() {
    return this.shown.some((number) => number !== NEVER && this.looks[number].flash !== "S");
  }

  /**
   * Outlines cells, and one more that is pointed at.
   * @param {ArrayLike<number> & Iterable<number>} cells
   * @param {number} pointed
   */
  outline(cells, pointed) {
    const brush = /** @type {CanvasRenderingContext2D} */ (this.outlines.getContext("2d"));
    const width = Math.max(2, Math.round(this.cellWidth / 8));
    brush.clearRect(0, 0, this.outlines.width, this.outlines.height);
    brush.lineWidth = width;
    for (const { list, ink } of [{ list: cells, ink: "#ff3df0" }, { list: pointed < 0 ? [] : [pointed], ink: "#ffd23d" }]) {
      ["#000", ink].forEach((colour, inner) => {
        brush.strokeStyle = colour;
        const inset = width / 2 + (inner ? 0 : width / 2);
        for (const cell of list) {
          const [x, y] = this.placeOf(cell);
          brush.strokeRect(x + inset, y + inset, this.cellWidth - 2 * inset, this.cellHeight - 2 * inset);
        }
      });
    }
  }

  /**
   * The cell under a point of the canvas, in pixels of the page, or -1.
   * @param {number} x
   * @param {number} y
   */
  cellAt(x, y) {
    const bounds = this.page.getBoundingClientRect();
    const column = Math.floor(((x - bounds.left) / bounds.width) * COLUMNS);
    const row = Math.floor(((y - bounds.top) / bounds.height) * ROWS);
    const inside = column >= 0 && column < COLUMNS && row >= 0 && row < ROWS;
    return inside ? row * COLUMNS + column : -1;
  }
}

/**
 * Paints a grid of looks into a canvas once, flashing signs as they are seen.
 * @param {HTMLCanvasElement} canvas
 * @param {import("./types.js").Cells} cells
 * @param {number} cellWidth
 * @param {number} ratio
 * @param {boolean} revealed
 */
export function paintStill(canvas, { looks, grid }, cellWidth, ratio, revealed) {
  const screen = new Screen(canvas, document.createElement("canvas"));
  screen.looks = looks;
  screen.revealed = revealed;
  screen.phase = null;
  screen.lay(cellWidth, ratio);
  screen.show(grid);
}
