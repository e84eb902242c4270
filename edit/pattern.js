// The panel of downloaded signs: a pattern of pixels with its inks, which becomes a line of the script; what it looks like is asked.
import { Painter, pixelsOf } from "./shared.js";
import { speak, word } from "./words.js";
import { SIZES, patternLine, raw } from "./lines.js";
import { button, choice, inLine, make, part, rove, styleOf, swatch } from "./controls.js";

/** @typedef {import("./types.js").Look} Look */
/** @typedef {import("./types.js").Tell} Tell */

/**
 * The script, the program, and whether lines can be added.
 * @typedef {{ sheet: import("./sheet.js").Sheet, asker: import("./ask.js").Asker, ready: () => boolean }} Needs
 */

/**
 * A sign that was painted and isn't defined yet: its code and its form, and the pixels of the field.
 * @typedef {{ code: number, size: string, planes: number, field: number[] }} Painted
 */

const [FIRST, LAST] = [0x21, 0x7e];
const CODES = Array.from({ length: LAST - FIRST + 1 }, (_, at) => FIRST + at);
/** @type {Record<number, number>} */
const COUNTS = { 1: 2, 2: 4, 4: 16 };
const [WIDEST, HIGHEST] = [12, 12];
const EDGE = 150;
const FORMS = SIZES.map(([wide, high]) => `${wide}x${high}`);
const BLACK_AND_WHITE = ["000", "FFF"];
/** @returns {number[]} */
const blankField = () => new Array(WIDEST * HIGHEST).fill(0);
/** @param {number} code */
const hexOf = (code) => `${code >> 4}/${code & 15}`;
// A screen without cells, under control defaults; and a sign of the downloaded set at its first place.
const [WIPED, AT_FIRST] = ["raw 1F2F440C", [0x1f, 0x41, 0x41, 0x1b, 0x28, 0x20, 0x40]];
/** @param {number} code */
const showLine = (code) => raw(...AT_FIRST, code);

/**
 * What paints on a canvas.
 * @param {HTMLCanvasElement} canvas
 * @returns {CanvasRenderingContext2D}
 */
const brushOf = (canvas) => /** @type {CanvasRenderingContext2D} */ (canvas.getContext("2d"));

export class PatternEditor {
  /**
   * @param {Needs} needs
   * @param {Tell} tell
   */
  constructor(needs, tell) {
    this.needs = needs;
    this.tell = tell;
    this.code = FIRST;
    this.size = "12x10";
    this.width = 12;
    this.height = 10;
    this.planes = 1;
    this.ink = 1;
    this.cursor = { line: 0, column: 0 };
    this.field = blankField();
    // The pixels that were defined or taken last.
    this.settled = String(this.field);
    this.paints = BLACK_AND_WHITE;
    this.grid = make("canvas", { id: "pixels", tabindex: 0, role: "application", name: "patternGrid", "aria-describedby": "pixel-words" });
    this.codes = make("select", { id: "pattern-code", name: "patternCode", onchange: () => this.take(Number(this.codes.value)) },
      ...CODES.map((code) => make("option", { value: code }, hexOf(code))));
    this.sizes = choice("patternSize", FORMS.map((form) => [form, null]), (size) => this.setForm(size, this.planes), { id: "pattern-size" });
    const depths = Object.keys(COUNTS).map((planes) => /** @type {[string, string]} */ ([planes, `planes${planes}`]));
    this.depths = choice("patternPlanes", depths, (planes) => this.setForm(this.size, Number(planes)), { id: "pattern-planes" });
    this.inks = make("div", { class: "group", role: "group", name: "patternInk", id: "inks" });
    this.preview = make("canvas", { id: "preview", width: 48, height: 60, role: "img", name: "patternPreview" });
    this.build();
  }

  /** @param {string} size */
  setSize(size) {
    this.size = size;
    [this.width, this.height] = size.split("x").map(Number);
    this.cursor = { line: 0, column: 0 };
  }

  /**
   * The pixels of the form, line after line. The field keeps what lies beyond, until the pattern is cleared or another is taken.
   * @returns {number[]}
   */
  get pixels() {
    const most = COUNTS[this.planes] - 1;
    return Array.from({ length: this.width * this.height }, (_, at) => Math.min(most, this.field[this.placeOf(at)]));
  }

  set pixels(inks) {
    inks.forEach((ink, at) => { this.field[this.placeOf(at)] = ink; });
  }

  /**
   * The place in the field of a pixel of the form.
   * @param {number} at
   */
  placeOf(at) {
    return Math.floor(at / this.width) * WIDEST + (at % this.width);
  }

  build() {
    [...this.sizes.options].forEach((option) => { option.textContent = option.value.replace("x", " × "); });
    this.sizes.value = this.size;
    const buttons = [
      button("patternClear", () => this.clear()), button("patternTurn", () => this.whole((pixel) => COUNTS[this.planes] - 1 - pixel)),
      button("patternDefine", () => this.define(), { class: "main" }), button("patternWrite", () => this.write()),
    ];
    part("pattern").append(
      make("div", { class: "beside" }, this.grid, make("div", { class: "column" },
        make("div", { class: "group" }, this.codes, this.sizes, this.depths),
        this.inks,
        inLine(...buttons, this.preview),
        make("p", { class: "hint", id: "pixel-words" }))),
    );
    this.joinGrid();
    this.showInks();
  }

  /**
   * @param {string} size
   * @param {number} planes
   */
  setForm(size, planes) {
    this.planes = planes;
    this.ink = Math.min(this.ink, COUNTS[planes] - 1);
    this.setSize(size);
    this.changed();
  }

  // Clears the field, beyond the form too.
  clear() {
    this.field = blankField();
    this.changed();
  }

  /** @param {(pixel: number) => number} act */
  whole(act) {
    this.pixels = this.pixels.map(act);
    this.changed();
  }

  /**
   * Takes a code: its pattern, where it has one. What was painted for the code before is defined then, which is said; where that can't be, the
   * code stays.
   * @param {number} code
   */
  take(code) {
    const [before, pattern] = [this.code, this.patternOf(code)];
    const isLost = pattern !== null && this.underWay() !== null;
    if (isLost && !this.needs.ready()) {
      this.show();
      return;
    }
    if (isLost) this.define();
    this.code = code;
    if (pattern) this.paintPattern(pattern);
    this.changed();
    if (isLost) this.tell({ kind: "said", text: word("patternKept", { code: hexOf(before) }) });
  }

  /** @param {import("./types.js").Pattern} pattern */
  paintPattern({ width, height, planes, words }) {
    this.planes = planes;
    this.field = blankField();
    this.setSize(`${width}x${height}`);
    this.pixels = [...pixelsOf(width, height, planes, words)];
    this.ink = Math.min(this.ink, COUNTS[planes] - 1);
    this.settle();
  }

  // Shows what was painted or taken, and tells that what is under way is another.
  changed() {
    this.show();
    this.tell({ kind: "drawn" });
  }

  // What is painted is defined, or taken, or given up.
  settle() {
    this.settled = String(this.field);
  }

  /**
   * What was painted and isn't defined yet, or null.
   * @returns {Painted | null}
   */
  underWay() {
    const { code, size, planes, field } = this;
    return String(field) === this.settled ? null : { code, size, planes, field };
  }

  /**
   * Goes on with what was painted and stored; without any the pixels stay as those of no page.
   * @param {Painted | null} painted
   */
  goOn(painted) {
    this.settle();
    if (painted) {
      [this.code, this.planes, this.field] = [painted.code, painted.planes, painted.field];
      this.setSize(painted.size);
    }
    this.show();
  }

  /**
   * The looks that the program gives to lines on the page as it would be kept, without its cells.
   * @param {string[]} lines
   */
  ask(lines) {
    const { sheet, asker } = this.needs;
    return asker.lastLooks(sheet.edited(), [WIPED, ...lines]);
  }

  /**
   * The pattern that a code has on the page as it would be kept, or null.
   * @param {number} code
   */
  patternOf(code) {
    const [, look] = this.ask([showLine(code)]);
    return look && look.pattern;
  }

  // The line that defines the pattern.
  line() {
    return patternLine(this.code, this);
  }

  define() {
    if (!this.needs.ready()) return;
    this.settle();
    this.tell({ kind: "act", lines: [this.line()] });
    this.show();
  }

  // Defines what was painted and isn't yet.
  finish() {
    if (this.underWay()) this.define();
  }

  // Writes the sign, which is defined before where it isn't yet.
  write() {
    const isNew = !this.patternOf(this.code);
    if (isNew) this.define();
    this.tell({ kind: "write", signs: [{ set: "D", code: this.code, accent: 0 }] });
    if (isNew && !this.needs.sheet.fault) this.tell({ kind: "said", text: word("patternFirst", { code: hexOf(this.code) }) });
  }

  /**
   * The paints of the inks, as the program says them of the pattern: of one plane background and foreground.
   * @param {Look | null} look
   * @returns {string[]}
   */
  paintsOf(look) {
    if (!look || !look.pattern) return BLACK_AND_WHITE;
    return look.pattern.planes === 1 ? [look.back, look.fore] : look.pattern.inks;
  }

  showInks() {
    const swatches = Array.from({ length: COUNTS[this.planes] }, (_, ink) => {
      const one = swatch("inkName", { ink }, () => { this.ink = ink; this.show(); });
      one.style.background = styleOf(this.paints[ink] || "000");
      one.setAttribute("aria-pressed", String(ink === this.ink));
      one.textContent = String(ink);
      return one;
    });
    const focused = this.inks.contains(document.activeElement);
    this.inks.replaceChildren(...swatches);
    rove(swatches);
    if (focused) swatches[this.ink].focus();
    speak(this.inks);
  }

  // Asks what the pattern would look like, and shows it.
  show() {
    if (part("pattern").hidden) return;
    const [, , look] = this.ask([this.line(), showLine(this.code)]);
    this.paints = this.paintsOf(look);
    if (look) new Painter(this.preview, 48, 60).cell(look, 0, 0, 0, true);
    else brushOf(this.preview).clearRect(0, 0, 48, 60);
    [this.codes.value, this.sizes.value, this.depths.value] = [String(this.code), this.size, String(this.planes)];
    this.showInks();
    this.drawGrid();
  }

  // Marks the codes that have a pattern.
  mark() {
    if (part("pattern").hidden) return;
    const looks = this.ask(CODES.map(showLine)).slice(1);
    // A sign that changes nothing looks like the one before.
    /** @type {Look | null} */
    let look = null;
    [...this.codes.options].forEach((option, at) => {
      look = looks[at] || look;
      const has = look !== null && look.kind === "pattern";
      option.textContent = hexOf(CODES[at]) + (has ? ` – ${word("patternDefined")}` : "");
    });
  }

  drawGrid() {
    const edge = Math.floor(EDGE / Math.max(this.width, this.height));
    const [width, height] = [edge * this.width, edge * this.height];
    if (this.grid.width !== width + 1 || this.grid.height !== height + 1) [this.grid.width, this.grid.height] = [width + 1, height + 1];
    const brush = brushOf(this.grid);
    brush.clearRect(0, 0, width + 1, height + 1);
    this.pixels.forEach((ink, at) => {
      brush.fillStyle = styleOf(this.paints[ink] || "000");
      brush.fillRect((at % this.width) * edge, Math.floor(at / this.width) * edge, edge, edge);
    });
    brush.strokeStyle = "#808080";
    brush.lineWidth = 1;
    for (let column = 0; column <= this.width; column++) brush.strokeRect(column * edge + 0.5, 0.5, 0, height);
    for (let line = 0; line <= this.height; line++) brush.strokeRect(0.5, line * edge + 0.5, width, 0);
    brush.strokeStyle = "#ff3df0";
    brush.lineWidth = 2;
    brush.strokeRect(this.cursor.column * edge + 1.5, this.cursor.line * edge + 1.5, edge - 2, edge - 2);
    this.tellPixel();
  }

  // Tells which pixel the caret of the form is at.
  tellPixel() {
    const { line, column } = this.cursor;
    part("pixel-words").textContent = word("pixel", { row: line + 1, column: column + 1, ink: this.pixels[line * this.width + column] });
  }

  /**
   * @param {number} line
   * @param {number} column
   * @param {number} ink
   */
  paint(line, column, ink) {
    this.cursor = { line, column };
    this.field[line * WIDEST + column] = ink;
    this.changed();
  }

  joinGrid() {
    /** @type {number | null} */
    let ink = null;
    /** @type {(event: PointerEvent) => [number, number]} */
    const at = (event) => {
      const bounds = this.grid.getBoundingClientRect();
      /** @type {(value: number, size: number, count: number) => number} */
      const place = (value, size, count) => Math.min(count - 1, Math.max(0, Math.floor((value / size) * count)));
      return [place(event.clientY - bounds.top, bounds.height, this.height), place(event.clientX - bounds.left, bounds.width, this.width)];
    };
    this.grid.addEventListener("pointerdown", (event) => {
      const [line, column] = at(event);
      ink = this.pixels[line * this.width + column] === this.ink ? 0 : this.ink;
      this.grid.setPointerCapture(event.pointerId);
      this.paint(line, column, ink);
    });
    this.grid.addEventListener("pointermove", (event) => {
      const [line, column] = at(event);
      if (ink !== null && (line !== this.cursor.line || column !== this.cursor.column)) this.paint(line, column, ink);
    });
    for (const end of ["pointerup", "pointercancel"]) this.grid.addEventListener(end, () => { ink = null; });
    this.grid.addEventListener("keydown", (event) => {
      /** @type {Record<string, [number, number]>} */
      const steps = { ArrowUp: [-1, 0], ArrowDown: [1, 0], ArrowLeft: [0, -1], ArrowRight: [0, 1] };
      const step = steps[event.key];
      const { line, column } = this.cursor;
      if (step) {
        /** @type {(value: number, count: number) => number} */
        const within = (value, count) => Math.min(count - 1, Math.max(0, value));
        this.cursor = { line: within(line + step[0], this.height), column: within(column + step[1], this.width) };
        this.drawGrid();
      } else if (event.key === " ") this.paint(line, column, this.pixels[line * this.width + column] === this.ink ? 0 : this.ink);
      else if (/^\d$/.test(event.key) && Number(event.key) < COUNTS[this.planes]) {
        this.ink = Number(event.key);
        this.show();
      } else return;
      event.preventDefault();
    });
  }

  speak() {
    speak(part("pattern"));
    this.tellPixel();
    this.mark();
  }
}
