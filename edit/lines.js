// The words of a script's lines, and the bytes of `raw`, for what can be chosen and typed. What they do is the program's matter.
import { unicodeOf } from "./shared.js";

/** @typedef {import("./types.js").Sign} Sign */

/**
 * @param {Iterable<number>} bytes
 * @returns {string}
 */
export const hex = (bytes) => [...bytes].map((byte) => byte.toString(16).toUpperCase().padStart(2, "0")).join("");
/**
 * @param {...number} bytes
 * @returns {string}
 */
export const raw = (...bytes) => `raw ${hex(bytes)}`;
/**
 * @param {Uint8Array} one
 * @param {ArrayLike<number>} other
 * @returns {boolean}
 */
export const sameBytes = (one, other) => one.length === other.length && one.every((byte, at) => byte === other[at]);

const LETTERS = ["P", "S"];
// Locks G0.
const LOCK = 0x0f;
/**
 * What stands before a sign of a set and after it, as the program writes pages.
 * @type {Record<string, [number[], number[]]>}
 */
const AROUND = { P: [[], []], S: [[0x19], []], M: [[0x0e], [0x0f]], N: [[0x1d], []], D: [[0x1b, 0x28, 0x20, 0x40], [0x1b, 0x28, 0x40]] };
// The groups of which the signs are written without what stands around each.
const GROUPED = ["M", "D"];

// The signs that can be typed, by what `show` puts for them: a set, a code and an accent.
function typedSigns() {
  /** @type {Map<string, Sign>} */
  const signs = new Map();
  /** @type {(set: string, code: number, accent: number) => void} */
  const take = (set, code, accent) => {
    const sign = unicodeOf({ kind: "sign", set, code, accent }).normalize("NFC");
    if (sign !== "\ufffd" && !signs.has(sign)) signs.set(sign, { set, code, accent });
  };
  for (let code = 0x20; code < 0x80; code++) take("P", code, 0);
  for (let code = 0x21; code < 0x7f; code++) if (code < 0x40 || code > 0x4f) take("S", code, 0);
  for (let accent = 0x41; accent < 0x50; accent++) for (let code = 0x20; code < 0x7f; code++) take("P", code, accent);
  return signs;
}

const SIGNS = typedSigns();
/**
 * @param {string} text
 * @returns {Sign | null}
 */
export const signOf = (text) => SIGNS.get(text.normalize("NFC")) || null;
/**
 * The signs of a text, each with the marks that follow it.
 * @param {string} text
 * @returns {string[]}
 */
export const signsIn = (text) => text.match(/\P{M}\p{M}*|\p{M}+/gsu) || [];
/**
 * The signs of a text that a set has.
 * @param {string} text
 * @returns {Sign[]}
 */
export const knownSigns = (text) => signsIn(text).flatMap((one) => signOf(one) || []);
/**
 * Signs as word processors put them, by what is written in their place where no set has them.
 * @type {Record<string, string>}
 */
const PROCESSED = {
  "-": "\u2010\u2011\u2012\u2013\u2014\u2212", "\"": "\u201e\u201f\u201c\u201d", "'": "\u201a\u201b\u2018\u2019", "...": "\u2026",
};
const PLAINER = new Map(Object.entries(PROCESSED).flatMap(([by, signs]) => [...signs].map((sign) => /** @type {const} */ ([sign, by]))));
const [SPACES, LOW_QUOTES, QUOTES] = [/[\u00a0\u2007\u2009\u202f]/g, /[\u201a\u201e]/, /[\u2018\u2019\u201c\u201d]/];
/**
 * A line with plainer signs for those of word processors that no set has; beside a low quotation mark, which none has, for the others too.
 * Notes what was replaced by what, but of spaces.
 * @param {string} line
 * @param {Map<string, string>} noted
 * @returns {string}
 */
export function plainer(line, noted) {
  const isQuoted = LOW_QUOTES.test(line);
  return signsIn(line.replace(SPACES, " ")).map((sign) => {
    const by = signOf(sign) && !(isQuoted && QUOTES.test(sign)) ? undefined : PLAINER.get(sign);
    if (by) noted.set(sign, by);
    return by || sign;
  }).join("");
}
/**
 * The plainer sign for one of word processors, or none.
 * @param {string} sign
 */
export const plainerSign = (sign) => PLAINER.get(sign) || "";
/** @param {Sign} sign */
const isPlain = ({ set, code, accent }) => set === "P" && code < 0x7f && !accent;
/** @param {Sign[]} signs */
const plainText = (signs) => signs.map(({ code }) => String.fromCharCode(code)).join("");

/**
 * @param {Sign} sign
 * @returns {number[]}
 */
function bytesOfSign({ set, code, accent }) {
  if (accent) return [0x19, accent, code];
  const [before, after] = AROUND[set];
  return [...before, code, ...after];
}

/**
 * The bytes of signs one after the other.
 * @param {Sign[]} signs
 * @returns {number[]}
 */
export function bytesOfSigns(signs) {
  /** @type {number[]} */
  const bytes = [];
  signs.forEach((sign, at) => {
    if (!GROUPED.includes(sign.set)) {
      bytes.push(...bytesOfSign(sign));
      return;
    }
    const [before, after] = AROUND[sign.set];
    if (at === 0 || signs[at - 1].set !== sign.set) bytes.push(...before);
    bytes.push(sign.code);
    if (at === signs.length - 1 || signs[at + 1].set !== sign.set) bytes.push(...after);
  });
  return bytes;
}

/**
 * The line of a stretch of typing: `text` where that can say it; else `raw`, after a comment that can be read.
 * @param {Sign[]} signs
 * @returns {string[]}
 */
export function linesOfSigns(signs) {
  if (signs.every(isPlain)) return [`text ${plainText(signs)}`];
  const readable = signs.every(({ set }) => LETTERS.includes(set));
  const comment = readable ? [`# ${signs.map((sign) => unicodeOf({ kind: "sign", ...sign }).normalize("NFC")).join("")}`] : [];
  const locked = signs.some(({ set }) => set === "P") ? [LOCK] : [];
  return [...comment, raw(...locked, ...bytesOfSigns(signs))];
}

const FIGURES = /^# (?:(?:plot|unplot|line|box|wipe)(?: \d+)+(?:; |$))+$/;
/**
 * Whether a comment is what the editor itself put before a line: the letters that this writes, or the figures that it draws.
 * @param {string} comment
 * @param {string} line
 */
export function isNoteOn(comment, line) {
  const signs = knownSigns(comment.slice(2));
  const isOfLetters = signs.length > 0 && linesOfSigns(signs).join("\n") === `${comment}\n${line}`;
  return isOfLetters || (FIGURES.test(comment) && line.startsWith("raw "));
}

// A sign outside it may be composed to one within, which `text` doesn't take as it was typed.
const ASCII = /^[ -~]*$/;
/**
 * The line that writes a typed text: `raw` after the lock of G0 that `text` makes, where `text` can't say it.
 * @param {string} text
 * @returns {string}
 */
function written(text) {
  const parts = signsIn(text);
  const signs = knownSigns(text);
  return signs.length < parts.length || ASCII.test(text) ? `text ${text}` : raw(LOCK, ...bytesOfSigns(signs));
}

/**
 * The line of the program's own grammar that does what a typed one says, as btx makes it of scripts (btx/typed.py).
 * @param {string} line
 * @returns {string}
 */
export function inGrammar(line) {
  const begun = line.replace(/^[ \t]+/, "");
  const text = /^text[ \t](.+)$/s.exec(begun);
  if (text) return written(text[1]);
  return begun.startsWith("#") ? begun : begun.replace(/[ \t]+$/, "").replace(/[ \t]+/g, " ");
}

/**
 * A sign as it is told: by its number where it can't be seen.
 * @param {string} sign
 */
export function toldSign(sign) {
  const isSeen = !/^[\p{C}\p{Z}]/u.test(sign);
  return isSeen ? sign : `U+${(sign.codePointAt(0) || 0).toString(16).toUpperCase().padStart(4, "0")}`;
}

/**
 * The first sign of a typed line that no set has, and its place in the line.
 * @param {string} line
 * @returns {{ sign: string, place: number } | null}
 */
export function unknownIn(line) {
  const text = (/^[ \t]*text[ \t](.+)$/s.exec(line) || ["", ""])[1];
  let place = [...line].length - [...text].length + 1;
  for (const sign of signsIn(text)) {
    if (!signOf(sign)) return { sign, place };
    place += [...sign].length;
  }
  return null;
}

/**
 * The bytes of the lines that a pen may have, for a drawing, which is one line.
 * @param {string} line
 * @returns {number[]}
 */
export function bytesOfLine(line) {
  const [word, rest] = line.split(" ");
  if (word === "c1") return [0x80 + Number(rest)];
  if (word === "table") return [0x9b, 0x30 + Number(rest), 0x40];
  return (rest.match(/../g) || []).map((digits) => parseInt(digits, 16));
}

/**
 * @param {number} mode
 * @returns {string}
 */
const flashMode = (mode) => raw(0x9b, 0x30 + mode, 0x41);
export const COLOURS = ["black", "red", "green", "yellow", "blue", "magenta", "cyan", "white"];

/**
 * What can be chosen under the parallel set, class by class: the name of each choice and its line. Colours are chosen by table and number.
 * @type {{ size: Record<string, string | null>, flash: Record<string, string | null>, switches: Record<string, string> }}
 */
export const PEN = {
  size: { normal: null, high: "c1 13", wide: "c1 14", both: "c1 15" },
  flash: {
    steady: null, flash: "c1 8", inverted: flashMode(0), reduced: flashMode(1), fast1: flashMode(2), fast2: flashMode(3),
    fast3: flashMode(4), next: flashMode(5), previous: flashMode(6),
  },
  switches: { lined: "c1 26", boxed: "c1 11", conceal: "c1 24", invert: "c1 29", transparent: "c1 30" },
};
// The lines under which signs are high, and wide.
export const TALLER = ["c1 13", "c1 15"];
export const WIDER = ["c1 14", "c1 15"];
/**
 * The markers of the serial set, beside the colours.
 * @type {Record<string, string>}
 */
export const MARKERS = {
  normal: "c1 12", high: "c1 13", wide: "c1 14", both: "c1 15",
  steady: "c1 9", flash: "c1 8", inverted: flashMode(0), reduced: flashMode(1), fast1: flashMode(2), fast2: flashMode(3), fast3: flashMode(4),
  next: flashMode(5), previous: flashMode(6),
  lined: "c1 26", unlined: "c1 25", boxed: "c1 11", unboxed: "c1 10", conceal: "c1 24", revealed: raw(0x9b, 0x42),
  blackBack: "c1 28", newBack: "c1 29", hold: "c1 30", release: "c1 31",
};
/**
 * Attributes of a row and of the screen, beside the colours: the name and the number.
 * @type {Record<string, number>}
 */
export const WHOLE = {
  normal: 12, high: 13, wide: 14, both: 15, flash: 8, steady: 9, lined: 26, unlined: 25, boxed: 11, unboxed: 10, conceal: 24, revealed: 31,
  invert: 29, positive: 28, transparent: 30,
};
export const ROW_ALONE = ["normal", "high", "wide", "both"];
// Number of a colour among the codes: foreground or alpha, background or mosaic.
export const FORE = 0;
export const BACK = 16;

/**
 * The line that names a table, where the script hasn't said so last.
 * @param {number} table
 * @param {string | null} known
 * @returns {string[]}
 */
export const tableLines = (table, known) => (known === `table ${table}` ? [] : [`table ${table}`]);

/**
 * The lines of entries that are chosen, each by its table: an entry, or null, and the number that its colour begins from. A line has named
 * the table last. The word stands before each number.
 * @param {string} word
 * @param {[number | null, number][]} chosen
 * @param {string | null} table
 * @returns {string[]}
 */
export function colourLines(word, chosen, table) {
  const lines = [];
  let known = table;
  for (const [entry, first] of chosen) {
    if (entry === null) continue;
    lines.push(...tableLines(entry >> 3, known), `${word} ${first + (entry & 7)}`);
    known = `table ${entry >> 3}`;
  }
  return lines;
}

export const SIZES = [[12, 12, 0x36], [12, 10, 0x37], [6, 12, 0x3a], [6, 10, 0x3b], [6, 5, 0x3c], [6, 6, 0x3f]];
/** @type {Record<number, number>} */
const PLANES = { 1: 0x41, 2: 0x42, 4: 0x44 };

/**
 * The line that gives a code of the downloaded set a pattern: its pixels line after line, each the number of its ink.
 * @param {number} code
 * @param {{ width: number, height: number, planes: number, pixels: number[] }} pattern
 * @returns {string}
 */
export function patternLine(code, { width, height, planes, pixels }) {
  const found = SIZES.find(([w, h]) => w === width && h === height);
  if (!found) throw new RangeError(`${width} x ${height}`);
  const bytes = [0x1f, 0x23, 0x20, 0x20, 0x40, found[2], PLANES[planes], 0x1f, 0x23, code];
  for (let plane = 0; plane < planes; plane++) {
    bytes.push(0x30 + plane);
    for (let at = 0; at < pixels.length; at += 6) {
      bytes.push(0x40 + pixels.slice(at, at + 6).reduce((sum, pixel) => 2 * sum + ((pixel >> plane) & 1), 0));
    }
  }
  return raw(...bytes);
}

/**
 * @param {number[]} values
 * @returns {string}
 */
export const dclutLine = (values) => raw(0x1f, 0x26, 0x20, 0x22, 0x1f, 0x26, 0x30, 0x30, ...values.map((value) => 0x40 + value));
/**
 * @param {number} rows
 * @param {boolean} wrap
 * @returns {string}
 */
export const formatLine = (rows, wrap) => raw(0x1f, 0x2d, rows === 20 ? 0x42 : 0x41, wrap ? 0x70 : 0x71);
export const coloursLine = raw(0x1f, 0x26, 0x21);
