// The painter's rule: which colour each of a cell's twelve by ten dots has. btx/painting.py has the same rule, and shapes/README.md says
// it.
import { SHAPES } from "./shapes.js";
import { pixelsOf } from "./text.js";

/** @typedef {import("./types.js").Look} Look */
/** @typedef {import("./types.js").Run} Run */
/** @typedef {(x: number, y: number) => string} Paints */

const [WIDTH, HEIGHT, FIRST] = [12, 10, 0x20];
export const DOTS = { WIDTH, HEIGHT };
const DIGITS = (WIDTH * HEIGHT) / 4;
const VIDEO = "---";
export const PICTURE = SHAPES.picture.map((colour) => `#${colour}`);
/** @param {Record<string, string[]>} sets */
const joined = (sets) => new Map(Object.entries(sets).map(([name, rows]) => [name, rows.join("")]));
const SETS = joined(SHAPES.sets);
const LINED = joined(SHAPES.lined);

/**
 * Whether a flash lets the foreground be seen in a phase of the six.
 * @param {string} flash
 * @param {number} phase
 */
function isOn(flash, phase) {
  if (flash === "F") return phase < 3;
  if (flash === "I") return phase >= 3;
  if (flash >= "1" && flash <= "3") return phase >> 1 === Number(flash) - 1;
  return true;
}

/**
 * The foreground in a phase: under reduced intensity each part is halved in three of the six.
 * @param {Look} look
 * @param {number} phase
 */
export function foreOf(look, phase) {
  if (look.flash !== "R" || phase < 3 || look.fore === VIDEO) return look.fore;
  return [...look.fore].map((digit) => (parseInt(digit, 16) >> 1).toString(16).toUpperCase()).join("");
}

/**
 * What the cell shows in a phase: 0 its background alone, 1 its sign, 2 its sign with reduced intensity.
 * @param {Look} look
 * @param {number} phase
 * @param {boolean} revealed
 */
export function appearance(look, phase, revealed) {
  if (look.concealed && !revealed) return 0;
  if (!isOn(look.flash, phase)) return 0;
  return look.flash === "R" && phase >= 3 ? 2 : 1;
}

/**
 * The first phase in which a sign is seen, for a picture that stands still.
 * @param {Look} look
 */
export function phaseSeen(look) {
  return [0, 1, 2, 3, 4].find((phase) => appearance(look, phase, true) !== 0) ?? 5;
}

/**
 * The text of the steady look that is painted in a phase: without a sign and its line where only the background is seen.
 * @param {Look} look
 * @param {number} phase
 */
export function seenText(look, phase) {
  const seen = appearance(look, phase, true) !== 0;
  const [shape, part, , back, signs] = look.text.split(" ");
  return [seen ? shape : "-", part, foreOf(look, phase), back, `S${signs[1]}${seen ? signs[2] : "-"}${signs[3]}`].join(" ");
}

/**
 * The lines of a sign, each a number whose highest of twelve bits is the left dot.
 * @param {Look} look
 */
function linesOf(look) {
  if (look.kind === "space") return Array.from({ length: HEIGHT }, (_, line) => (look.lined && line === HEIGHT - 1 ? 0xfff : 0));
  const own = look.lined ? LINED.get(look.set) : "";
  const accented = look.accent ? SETS.get(`${look.set}+${look.accent.toString(16).toUpperCase()}`) : null;
  const signs = own || accented || SETS.get(look.set) || "";
  const at = (look.code - FIRST) * DIGITS;
  const lines = Array.from({ length: HEIGHT }, (_, line) => parseInt(signs.slice(at + 3 * line, at + 3 * line + 3), 16));
  if (look.lined && !own) lines[HEIGHT - 1] = 0xfff;
  return lines;
}

/**
 * Where a dot of the cell stands in the whole sign, of twelve by ten.
 * @param {Look} look
 * @param {number} x
 */
const columnOf = (look, x) => Math.floor((look.right * WIDTH + x) / look.wide);
/**
 * @param {Look} look
 * @param {number} y
 */
const rowOf = (look, y) => Math.floor((look.down * HEIGHT + y) / look.high);

/**
 * Which of the parts of a length a dot shows: that in which its middle is, between two the one that is nearer to an end.
 * @param {number} dot
 * @param {number} dots
 * @param {number} parts
 */
function nearest(dot, dots, parts) {
  const middle = (2 * dot + 1) * parts;
  const part = Math.floor(middle / (2 * dots));
  return middle % (2 * dots) === 0 && 2 * part <= parts ? part - 1 : part;
}

/**
 * The paint of a dot of a pattern by the dot's place in the cell.
 * @param {Look} look
 * @param {import("./types.js").Pattern} pattern
 * @param {string} fore
 * @returns {Paints}
 */
function patternPaints(look, pattern, fore) {
  const { width, height, planes, words, inks } = pattern;
  const pixels = pattern.pixels || pixelsOf(width, height, planes, words);
  pattern.pixels = pixels;
  const paints = planes > 1 ? inks : [look.back, fore];
  return (x, y) => {
    if (look.lined && rowOf(look, y) === HEIGHT - 1) return fore;
    const column = nearest(look.right * WIDTH + x, look.wide * WIDTH, width);
    return paints[pixels[nearest(look.down * HEIGHT + y, look.high * HEIGHT, height) * width + column]];
  };
}

/**
 * @param {Look} look
 * @param {string} fore
 * @returns {Paints}
 */
function signPaints(look, fore) {
  const lines = linesOf(look);
  return (x, y) => ((lines[rowOf(look, y)] >> (WIDTH - 1 - columnOf(look, x))) & 1 ? fore : look.back);
}

/**
 * The same with a dotted frame at the edge of the whole sign.
 * @param {Paints} paintOf
 * @param {Look} look
 * @param {string} fore
 * @returns {Paints}
 */
function framed(paintOf, look, fore) {
  return (x, y) => {
    const [column, row] = [columnOf(look, x), rowOf(look, y)];
    const edge = column === 0 || column === WIDTH - 1 || row === 0 || row === HEIGHT - 1;
    return edge && (column + row) % 2 === 0 ? fore : paintOf(x, y);
  };
}

/**
 * The paint of each dot of a cell, line after line: three digits, or --- for the picture behind the screen.
 * @param {Look} look
 * @param {number} phase
 * @param {boolean} revealed
 */
export function paintsOf(look, phase, revealed) {
  const fore = foreOf(look, phase);
  const shape = () => (look.pattern ? patternPaints(look, look.pattern, fore) : signPaints(look, fore));
  const inside = appearance(look, phase, revealed) ? shape() : () => look.back;
  const paintOf = look.boxed ? framed(inside, look, fore) : inside;
  return Array.from({ length: WIDTH * HEIGHT }, (_, dot) => paintOf(dot % WIDTH, Math.floor(dot / WIDTH)));
}

/**
 * The colour of a dot: of the picture behind the screen one of its two shades, in quarters of a cell.
 * @param {string} paint
 * @param {number} x
 * @param {number} y
 */
function colourOf(paint, x, y) {
  if (paint !== VIDEO) return `#${paint}`;
  return PICTURE[(x < WIDTH / 2) !== (y < HEIGHT / 2) ? 1 : 0];
}

/**
 * Runs of dots of one colour, line after line: a colour, the line, the first column and that after the last.
 * @param {Look} look
 * @param {number} phase
 * @param {boolean} revealed
 */
export function runsOf(look, phase, revealed) {
  /** @type {Run[]} */
  const runs = [];
  paintsOf(look, phase, revealed).forEach((paint, dot) => {
    const [x, y] = [dot % WIDTH, Math.floor(dot / WIDTH)];
    const colour = colourOf(paint, x, y);
    const last = runs[runs.length - 1];
    if (x && last.colour === colour) last.end = x + 1;
    else runs.push({ colour, line: y, start: x, end: x + 1 });
  });
  return runs;
}
