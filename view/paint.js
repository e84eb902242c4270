// Paints one cell in dots. A cell's look names a sign and which part of it the cell shows; nothing is painted outside the cell.
import { DOTS, PICTURE, appearance, foreOf, runsOf } from "./dots.js";
import { unicodeOf } from "./signs.js";

/** @typedef {import("./types.js").Look} Look */
/** @typedef {import("./types.js").Run} Run */

const FONT = "'DejaVu Sans Mono', 'Cascadia Mono', Menlo, Consolas, 'Liberation Mono', monospace";
// How much of a cell's width the letters of a font take.
const LETTER = 0.88;
const NO_SIGN = "\ufffd";

/**
 * The whole edges of so many equal parts of a length.
 * @param {number} count
 * @param {number} length
 */
function edges(count, length) {
  return Array.from({ length: count + 1 }, (_, edge) => Math.round((edge * length) / count));
}

/**
 * Whether a font has the sign of a look.
 * @param {Look} look
 */
function isLetter(look) {
  return look.kind === "sign" && (look.set === "P" || look.set === "S") && look.code !== 0x7f && unicodeOf(look) !== NO_SIGN;
}

export class Painter {
  /**
   * Cells of a width and a height in the canvas's own pixels. With a font letters are its own, and the rest is in dots.
   * @param {HTMLCanvasElement} canvas
   * @param {number} width
   * @param {number} height
   * @param {boolean} [font]
   */
  constructor(canvas, width, height, font = false) {
    this.brush = /** @type {CanvasRenderingContext2D} */ (canvas.getContext("2d", { alpha: false }));
    this.width = width;
    this.height = height;
    this.font = font;
    this.across = edges(DOTS.WIDTH, width);
    this.down = edges(DOTS.HEIGHT, height);
    /** @type {Map<string, Run[]>} */
    this.known = new Map();
    this.stretch = 1;
    this.baseline = 0;
    if (font) this.measureFont();
  }

  measureFont() {
    this.brush.font = `${this.height * 0.84}px ${FONT}`;
    this.stretch = (this.width * LETTER) / this.brush.measureText("M").width;
    this.baseline = this.height * 0.79;
  }

  /**
   * The runs of a look in a phase; those of looks that are seen alike are made once.
   * @param {Look} look
   * @param {number} phase
   * @param {boolean} revealed
   */
  runsOf(look, phase, revealed) {
    const key = `${look.text} ${appearance(look, phase, revealed)}${foreOf(look, phase)}`;
    const known = this.known.get(key) || runsOf(look, phase, revealed);
    this.known.set(key, known);
    return known;
  }

  /**
   * Paints the cell whose left upper pixel is at x, y.
   * @param {Look} look
   * @param {number} x
   * @param {number} y
   * @param {number} phase
   * @param {boolean} revealed
   */
  cell(look, x, y, phase, revealed) {
    const lettered = this.font && isLetter(look);
    const text = lettered ? look.text.replace(/^\S+/, "-") : look.text;
    const runs = this.runsOf(lettered ? { ...look, kind: "space", text } : look, phase, revealed);
    for (const { colour, line, start, end } of runs) {
      this.brush.fillStyle = colour;
      const [left, top] = [this.across[start], this.down[line]];
      this.brush.fillRect(x + left, y + top, this.across[end] - left, this.down[line + 1] - top);
    }
    if (lettered && appearance(look, phase, revealed)) this.letter(look, x, y, phase);
  }

  /**
   * The letter of a font, as much of it as is in the cell.
   * @param {Look} look
   * @param {number} x
   * @param {number} y
   * @param {number} phase
   */
  letter(look, x, y, phase) {
    const paint = foreOf(look, phase);
    this.brush.save();
    this.brush.beginPath();
    this.brush.rect(x, y, this.width, this.height);
    this.brush.clip();
    this.brush.fillStyle = paint === "---" ? PICTURE[0] : `#${paint}`;
    this.brush.font = `${this.height * 0.84}px ${FONT}`;
    this.brush.translate(x - look.right * this.width, y - look.down * this.height);
    this.brush.scale(look.wide, look.high);
    this.brush.translate((this.width * (1 - LETTER)) / 2, this.baseline);
    this.brush.scale(this.stretch, 1);
    this.brush.fillText(unicodeOf(look).normalize("NFC"), 0, 0);
    this.brush.restore();
  }
}
