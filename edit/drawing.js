// The panel of drawing. A drawing of points, lines and boxes is handed to the program (`plot`); the cells that it says are other mosaics
// become one line of the script, with the chosen pen, and what that line shows is seen before it is kept.
import { COLUMNS, ROWS, readCells } from "./shared.js";
import { speak, word } from "./words.js";
import { AskFault, BadLine } from "./faults.js";
import { whyBad } from "./grammar.js";
import { inGrammar, raw, sameBytes } from "./lines.js";
import { STATUS } from "./statuses.js";
import { isTooLong } from "./sheet.js";
import { Steps, kindOf } from "./steps.js";
import { button, group, inLine, make, part, rove } from "./controls.js";

/** @typedef {import("./types.js").Look} Look */
/** @typedef {import("./types.js").Tell} Tell */
/** @typedef {{ x: number, y: number }} Point */

/**
 * The script, the program, the bytes of the chosen pen, where the caret is, and whether lines can be added.
 * @typedef {{
 *   sheet: import("./sheet.js").Sheet, asker: import("./ask.js").Asker, pen: { bytes: () => number[] },
 *   caret: () => { row: number, column: number }, ready: () => boolean,
 * }} Needs
 */

// The points of the screen.
export const POINTS_WIDE = 80;
export const POINTS_TALL = 72;
const TOOLS = ["point", "line", "box", "unplot", "wipe"];
// So many cells or lines are told by their places.
const MOST_TOLD = 8;
const [LOCK_MOSAIC, LOCK_TEXT, SPACE] = [0x0e, 0x0f, 0x20];
// Control defaults with the parallel set; implicit scrolling off, and on, as `edit` puts it at the end of its bytes.
const [DEFAULTS, STILL, ROLLING] = [[0x1f, 0x2f, 0x44], [0x9b, 0x33, 0x60], [0x9b, 0x32, 0x60]];

/** @param {Look} look */
const shapeOf = (look) => look.text.split(" ")[0];
/**
 * Whether a cell shows a mosaic of its own. One that shows part of a sign beside it is uncovered where that is drawn over.
 * @param {Look} look
 */
const isMosaic = (look) => look.set === "M" && !look.down && !look.right;
/**
 * The lines of a drawing in a text, up to the last that isn't empty.
 * @param {string} text
 */
function linesOf(text) {
  const lines = text.split("\n").map(inGrammar);
  while (lines[lines.length - 1] === "") lines.pop();
  return lines;
}

/**
 * Whether the lines of a drawing are more than the program takes.
 * @param {string} text
 */
export const isLongDrawing = (text) => isTooLong(`${linesOf(text).join("\n")}\n`);

/**
 * The first of some places or numbers, and whether there are more.
 * @param {(string | number)[]} all
 */
const firstOf = (all) => all.slice(0, MOST_TOLD).join(", ") + (all.length > MOST_TOLD ? ", …" : "");
/** @param {number} cell */
const placeOf = (cell) => [Math.floor(cell / COLUMNS) + 1, (cell % COLUMNS) + 1];

/**
 * The lines of a drawing that have a point below so many points, by their numbers: `plot` draws nothing there.
 * @param {string[]} lines
 * @param {number} tall
 */
export const linesBelow = (lines, tall) => lines.flatMap((line, at) => {
  const heights = line.startsWith("#") ? [] : line.split(" ").filter((_, index) => index > 0 && index % 2 === 0);
  return heights.some((height) => Number(height) >= tall) ? [at + 1] : [];
});

/**
 * The line of a drawing for a figure of a tool between two points.
 * @param {string} tool
 * @param {Point} from
 * @param {Point} to
 * @returns {string}
 */
export function figureOf(tool, from, to) {
  if (tool === "point" || tool === "unplot") return `${tool === "point" ? "plot" : "unplot"} ${to.x} ${to.y}`;
  return `${tool} ${from.x} ${from.y} ${to.x} ${to.y}`;
}

/**
 * The line of the script that writes mosaics into cells, each by its code or, where that is null, a space: at each place that doesn't
 * follow the one before with the bytes of a pen. Null where there are none.
 * @param {{ cell: number, code: number | null }[]} mosaics
 * @param {number[]} pen
 * @param {boolean} rolls
 * @returns {string | null}
 */
export function lineOf(mosaics, pen, rolls) {
  const bytes = mosaics.flatMap(({ cell, code }, at) => {
    const follows = cell % COLUMNS !== 0 && at > 0 && mosaics[at - 1].cell === cell - 1;
    const place = follows ? [] : [0x1f, ...placeOf(cell).map((number) => 0x40 + number), ...pen];
    return [...place, ...(code === null ? [SPACE] : [LOCK_MOSAIC, code, LOCK_TEXT])];
  });
  return bytes.length ? raw(...DEFAULTS, ...STILL, ...bytes, ...(rolls ? ROLLING : [])) : null;
}

export class Drawing {
  /**
   * @param {Needs} needs
   * @param {Tell} tell
   */
  constructor(needs, tell) {
    this.needs = needs;
    this.tell = tell;
    /**
     * The tool that is taken, or null where nothing is drawn.
     * @type {string | null}
     */
    this.tool = null;
    /** @type {string[]} */
    this.lines = [];
    // How the lines came about: each stroke is a step.
    this.steps = new Steps();
    this.strokes = 0;
    // The lines that were told last.
    this.said = "";
    this.cursor = { x: 0, y: 0 };
    /** @type {Point | null} */
    this.anchor = null;
    /**
     * What is seen of the drawing: the line that would be kept, the grid with it, and the cells that show something else than was drawn.
     * @type {{ line: string, grid: Uint32Array, other: number[] } | null}
     */
    this.drawn = null;
    const disabled = !needs.asker.canPlot;
    const field = { id: "drawing", rows: 4, cols: 22, spellcheck: "false", name: "drawText", disabled };
    this.text = make("textarea", { ...field, oninput: (/** @type {Event} */ event) => this.typed(kindOf(event)) });
    this.keepers = [button("drawKeep", () => this.keep(), { class: "main" }), button("drawDrop", () => this.drop())];
    this.build();
  }

  build() {
    const can = this.needs.asker.canPlot;
    const tools = TOOLS.map((key) => button(key, () => this.take(key), { "data-tool": key, disabled: !can }));
    rove(tools);
    part("draw").append(
      inLine(group("drawing", ...tools), make("span", { id: "draw-where", class: "hint" })),
      make("div", { class: "beside" }, this.text, make("div", { class: "column" },
        inLine(...this.keepers),
        make("p", { class: "hint", word: can ? "drawHint" : "noPlot", id: "draw-hint" }),
        make("p", { id: "draw-fault", role: "alert" }))),
    );
    this.mark();
  }

  /**
   * Begins to draw, or ends it.
   * @param {boolean} draws
   */
  begin(draws) {
    const tool = draws && this.needs.asker.canPlot ? "point" : null;
    if (tool === this.tool) return;
    const { row, column } = this.needs.caret();
    if (tool) this.cursor = { x: 2 * (column - 1), y: 3 * (row - 1) };
    this.take(tool);
  }

  // Shows which tool is taken.
  mark() {
    for (const one of part("draw").querySelectorAll("[data-tool]")) {
      one.setAttribute("aria-pressed", String(one.dataset.tool === this.tool));
    }
    for (const one of this.keepers) one.disabled = !this.lines.length;
    part("draw-where").textContent = this.drawing() ? word("drawWhere", this.cursor) : "";
  }

  drawing() {
    return this.tool !== null;
  }

  // How many points the rows of the format have one above the other.
  tall() {
    return (POINTS_TALL / ROWS) * this.needs.sheet.rows;
  }

  /** @param {string | null} tool */
  take(tool) {
    this.tool = tool;
    this.anchor = null;
    this.show();
  }

  /**
   * The line of a figure between two points.
   * @param {Point} from
   * @param {Point} to
   */
  figure(from, to) {
    return figureOf(this.tool || "", from, to);
  }

  /**
   * The figures from the point that was last to this one: by hand a line of points has no gaps.
   * @param {Point} point
   */
  reach(point) {
    const { x, y } = this.cursor;
    const isNear = Math.abs(x - point.x) < 2 && Math.abs(y - point.y) < 2;
    if (this.tool === "point" && !isNear) this.add(`line ${x} ${y} ${point.x} ${point.y}`);
    else this.add(this.figure(point, point));
  }

  /** @param {string} line */
  add(line) {
    if (this.lines[this.lines.length - 1] !== line) this.lines.push(line);
    this.steps.note(this.underWay(), `stroke ${this.strokes}`);
  }

  /**
   * The mouse on the screen, in points.
   * @param {Point} point
   */
  down(point) {
    if (!this.needs.ready()) return;
    this.anchor = this.cursor = point;
    this.strokes++;
    if (this.isFree()) this.add(this.figure(point, point));
    this.show();
  }

  isFree() {
    return this.tool === "point" || this.tool === "unplot";
  }

  /** @param {Point} point */
  moveTo(point) {
    if (point.x === this.cursor.x && point.y === this.cursor.y) return;
    if (this.anchor && this.isFree()) this.reach(point);
    this.cursor = point;
    this.show();
  }

  up() {
    if (!this.anchor) return;
    if (!this.isFree()) this.add(this.figure(this.anchor, this.cursor));
    this.anchor = null;
    this.show();
  }

  /**
   * Keys on the screen while something is drawn.
   * @param {KeyboardEvent} event
   */
  key(event) {
    /** @type {Record<string, [number, number]>} */
    const steps = {
      ArrowUp: [0, -1], ArrowDown: [0, 1], ArrowLeft: [-1, 0], ArrowRight: [1, 0],
      Home: [-POINTS_WIDE, 0], End: [POINTS_WIDE, 0], PageUp: [0, -POINTS_TALL], PageDown: [0, POINTS_TALL],
    };
    const step = steps[event.key];
    if (step) {
      /** @type {(value: number, most: number) => number} */
      const within = (value, most) => Math.min(most - 1, Math.max(0, value));
      this.moveTo({ x: within(this.cursor.x + step[0], POINTS_WIDE), y: within(this.cursor.y + step[1], this.tall()) });
    } else if (event.key === " ") {
      if (this.anchor) this.up();
      else this.down(this.cursor);
    } else if (event.key === "Enter") this.keep();
    else if (event.key === "Escape") this.drop();
    else return false;
    return true;
  }

  /**
   * Takes the lines of the field. Another line is another step.
   * @param {string} kind
   */
  typed(kind) {
    this.lines = linesOf(this.text.value);
    this.steps.note(this.underWay(), kind && `${kind} ${this.lines.length}`);
    this.show();
  }

  /**
   * The lines of the drawing, with the figure that is being drawn.
   * @returns {string[]}
   */
  all() {
    const pending = this.anchor && this.isBegun() ? [this.figure(this.anchor, this.cursor)] : [];
    return [...this.lines, ...pending];
  }

  /**
   * The line of the script that draws the cells whose mosaic `plot` says is another, or null where there is none; and the shapes that all
   * other cells should have.
   * @param {string[]} lines
   * @returns {{ line: string | null, wanted: { cell: number, shape: string }[] }}
   */
  line(lines) {
    const { sheet, asker, pen } = this.needs;
    const page = sheet.edited();
    const [before, after] = [page, asker.plot(page, `${lines.join("\n")}\n`)].map((bytes) => readCells(asker.cells(bytes)));
    const [shown, wanted] = [before, after].map(({ looks, grid }) => /** @type {(cell: number) => Look} */ (cell) => looks[grid[cell]]);
    const other = [...before.grid.keys()].filter((cell) => shapeOf(shown(cell)) !== shapeOf(wanted(cell)));
    const cells = other.filter((cell) => isMosaic(wanted(cell)) || (isMosaic(shown(cell)) && wanted(cell).kind === "space"));
    const mosaics = cells.map((cell) => ({ cell, code: wanted(cell).set === "M" ? wanted(cell).code : null }));
    const rolls = sameBytes(page.slice(-ROLLING.length), ROLLING);
    return { line: lineOf(mosaics, pen.bytes(), rolls), wanted: other.map((cell) => ({ cell, shape: shapeOf(wanted(cell)) })) };
  }

  /**
   * What the screen shows with the line; the cells that the program shows otherwise than drawn are named.
   * @param {string} line
   * @param {{ cell: number, shape: string }[]} wanted
   */
  preview(line, wanted) {
    const { sheet, asker } = this.needs;
    const { cells, numbers, count } = asker.trace(sheet.edited(), `${line}\n`, sheet.known);
    const grid = sheet.making.end().slice();
    for (let at = 0; at < count; at++) grid[cells[at]] = numbers[at];
    const other = wanted.filter(({ cell, shape }) => shapeOf(sheet.known.list[grid[cell]]) !== shape);
    return { line, grid, other: other.map(({ cell }) => cell) };
  }

  /**
   * Tells the cells that show something else than was drawn, or that there are none as nothing changes; and the lines of which a part is below
   * the format.
   * @param {number[] | null} cells
   * @param {number[]} lines
   */
  tellLost(cells, lines) {
    const said = [
      !cells ? word("drawNothing") : cells.length ? word("drawCovered", { places: firstOf(cells.map((cell) => placeOf(cell).join("/"))) }) : "",
      lines.length ? word("drawBelow", { rows: this.needs.sheet.rows, lines: firstOf(lines) }) : "",
    ];
    this.fault(said.filter((text) => text).join(" "));
  }

  /** @param {string} text */
  fault(text) {
    part("draw-fault").textContent = text;
  }

  // Puts the lines into their field.
  put() {
    const text = this.underWay();
    if (this.text.value === text) return;
    this.text.value = text;
    this.text.scrollTop = this.text.scrollHeight;
  }

  // Shows the drawing as it would be kept. Where a person is writing its lines these stay as they are.
  show() {
    if (document.activeElement !== this.text) this.put();
    this.mark();
    this.tryAll();
    const isOther = this.said !== this.underWay();
    this.said = this.underWay();
    this.tell({ kind: isOther ? "drawn" : "seen" });
  }

  // Tries all that is drawn on the page, and tells what is wrong with it.
  tryAll() {
    const lines = this.all();
    this.fault("");
    this.drawn = null;
    if (lines.length > 0 && this.needs.ready()) this.tryLine(lines);
  }

  /**
   * Tries lines on the page; one that is wrong is told, and where the program ends without an answer.
   * @param {string[]} lines
   */
  tryLine(lines) {
    try {
      const { line, wanted } = this.line(lines);
      this.drawn = line ? this.preview(line, wanted) : null;
      this.tellLost(this.drawn && this.drawn.other, linesBelow(lines, this.tall()));
    } catch (fault) {
      if (fault instanceof AskFault) {
        const isLong = fault.status === STATUS.TOO_LONG && isLongDrawing(lines.join("\n"));
        this.fault(word(isLong ? "drawTooLong" : "ended", { status: fault.status }));
        return;
      }
      if (!(fault instanceof BadLine)) throw fault;
      const why = whyBad(fault, lines[fault.line - 1], "drawing", (page) => this.needs.asker.check(page));
      this.fault(word("drawBad", { ...fault, why }));
    }
  }

  // Makes the drawing a line of the script, after a comment that says what was drawn. One that can't be tried, changes nothing or finds no room
  // in the script stays, and it is said why.
  keep() {
    const { drawn, lines, steps } = this;
    let isFull = false;
    if (drawn) {
      this.forget();
      try {
        this.tell({ kind: "act", lines: [`# ${lines.filter((line) => line).join("; ")}`, drawn.line] });
      } catch (fault) {
        if (!(fault instanceof AskFault)) throw fault;
        [isFull, this.lines, this.steps] = [true, lines, steps];
      }
      this.put();
    }
    this.show();
    if (isFull) this.fault(word("drawFull"));
  }

  /**
   * The lines as they are stored until they are kept.
   * @returns {string}
   */
  underWay() {
    return this.lines.join("\n");
  }

  /**
   * Goes on with lines that were stored, each a step; without any there is no drawing.
   * @param {string} text
   */
  goOn(text) {
    this.forget();
    for (const line of linesOf(text)) {
      if (this.lines[this.lines.length - 1] === line) continue;
      this.steps.append(this.lines.length ? `\n${line}` : line);
      this.lines.push(line);
    }
    this.put();
    this.show();
  }

  /**
   * Gives up the figure that is begun, or takes the last one back, or draws it again. Answers whether there was any.
   * @param {"undo" | "redo"} by
   */
  undoRedo(by) {
    if (!this.drawing() || (!this.isBegun() && this.steps.undoRedo(by) === null)) return false;
    this.anchor = null;
    this.lines = linesOf(this.steps.text);
    this.put();
    this.show();
    return true;
  }

  // Whether a figure is begun that isn't among the lines yet.
  isBegun() {
    return this.anchor !== null && !this.isFree();
  }

  // Tries the drawing again, after the script was changed. One that was taken back whole isn't drawn again after that.
  again() {
    if (this.lines.length) this.show();
    else this.forget();
  }

  // Gives the drawing up, as a step that can be taken back.
  drop() {
    this.lines = [];
    this.anchor = null;
    this.steps.note("");
    this.put();
    this.show();
  }

  forget() {
    this.lines = [];
    this.steps = new Steps();
    this.anchor = this.drawn = null;
  }

  speak() {
    speak(part("draw"));
    this.mark();
    if (this.drawing()) this.tryAll();
  }
}
