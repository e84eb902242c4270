// Reads the texts that the program puts: change lines, refusal lines, nothing lines, the check line, and looks.
// Their grammar stands in docs/PROFILE.md under "Texts".

/** @typedef {import("./types.js").Cells} Cells */
/** @typedef {import("./types.js").Check} Check */
/** @typedef {import("./types.js").Look} Look */
/** @typedef {import("./types.js").Moment} Moment */
/** @typedef {import("./types.js").Pattern} Pattern */
/** @typedef {import("./types.js").Refusal} Refusal */
/** @typedef {import("./types.js").Trace} Trace */
/** @typedef {import("./types.js").Values} Values */

export const COLUMNS = 40;
export const ROWS = 24;
export const CELLS = ROWS * COLUMNS;
export const PHASES = 6;
const BLANK = "- 11.00 FFF 000 S---";
const SIGN = "([PSMND])([2-7][0-9A-F])(?:\\+(4[0-9A-F]))?";
const PATTERN = "%(12|6)x(12|10|6|5)x([124])/([0-9A-F]+)(?:/([0-9A-F-]+))?";
const LOOK = new RegExp(
  `^(?:-|${SIGN}|${PATTERN}) ([12])([12])\\.([01])([01]) ([0-9A-F]{3}|---) ([0-9A-F]{3}|---) ([SFIR123])([c-])([l-])([b-])$`
);
const REFUSAL = /^! (0|[1-9]\d*) ([1-9]\d*) ([1-7]) ([A-Za-z]+)$/;
const CHECK = /^items (0|[1-9]\d*) refused (0|[1-9]\d*)$/;
const NOTHING = /^([1-9]\d*) nothing$/;
// The number of signs of the shortest change line, and what no number of a text goes beyond.
const SHORTEST = "0 1 1 - 11.00 FFF 000 S---".length;
const MOST = 1e9;
// What stands in a line of a stored page that is read as a text.
const OF_BYTES = /(?![\t\r])[\p{Cc}\ufffd]/u;

// A text that can't be shown: the key of the words that say why, and the values in these.
export class TextFault extends Error {
  /**
   * @param {string} key
   * @param {Values} [values]
   */
  constructor(key, values = {}) {
    super(key);
    this.key = key;
    this.values = values;
  }
}

// A text that isn't what it was taken for: the number of the first line that isn't understood, and what it holds.
export class LineFault extends TextFault {
  /**
   * @param {number} number
   * @param {string} line
   * @param {string} key
   */
  constructor(number, line, key) {
    super(key, { number, line: line.length > 80 ? line.slice(0, 80) + " …" : line });
    this.number = number;
  }
}

/**
 * The pixels of a pattern, line after line, each the number of its ink.
 * @param {number} width
 * @param {number} height
 * @param {number} planes
 * @param {string} words
 */
export function pixelsOf(width, height, planes, words) {
  const pixels = new Uint8Array(width * height);
  for (let bit = 0; bit < width * height * planes; bit++) {
    const digit = parseInt(words[(bit >> 6) * 16 + 15 - ((bit & 63) >> 2)], 16);
    const plane = Math.floor(bit / pixels.length);
    pixels[bit % pixels.length] |= ((digit >> (bit & 3)) & 1) << plane;
  }
  return pixels;
}

/**
 * @param {RegExpExecArray} found
 * @returns {Pattern | null}
 */
function patternOf(found) {
  const [width, height, planes] = [Number(found[4]), Number(found[5]), Number(found[6])];
  const sizes = ["12x12", "12x10", "6x12", "6x10", "6x5", "6x6"];
  const digits = 16 * Math.ceil((width * height * planes) / 64);
  const inks = (found[8] || "").match(/[0-9A-F]{3}|---/g) || [];
  const enough = inks.length === (planes === 1 ? 0 : 1 << planes) && inks.join("") === (found[8] || "");
  if (!sizes.includes(`${width}x${height}`) || found[7].length !== digits || !enough) return null;
  return { width, height, planes, words: found[7], inks };
}

/**
 * The look that a text names, or null where it names none.
 * @param {string} text
 * @returns {Look | null}
 */
export function readLook(text) {
  const found = LOOK.exec(text);
  if (!found) return null;
  const pattern = found[4] ? patternOf(found) : null;
  if (found[4] && !pattern) return null;
  return {
    text,
    kind: found[1] ? "sign" : pattern ? "pattern" : "space",
    set: found[1] || "",
    code: found[2] ? parseInt(found[2], 16) : 0,
    accent: found[3] ? parseInt(found[3], 16) : 0,
    pattern,
    high: Number(found[9]),
    wide: Number(found[10]),
    down: Number(found[11]),
    right: Number(found[12]),
    fore: found[13],
    back: found[14],
    flash: found[15],
    concealed: found[16] === "c",
    lined: found[17] === "l",
    boxed: found[18] === "b",
  };
}

// Looks by their texts: each text is read once and has a number. Number 0 is the blank look.
export class Looks {
  constructor() {
    /** @type {Look[]} */
    this.list = [];
    /** @type {Map<string, number>} */
    this.numbers = new Map();
    this.number(BLANK);
  }

  /** @param {string} text */
  number(text) {
    const known = this.numbers.get(text);
    if (known !== undefined) return known;
    const look = readLook(text);
    if (!look) return -1;
    this.numbers.set(text, this.list.length);
    this.list.push(look);
    return this.list.length - 1;
  }
}

/**
 * The lines of a text, without the line feeds; the last may lack its own.
 * @param {string} text
 */
function linesOf(text) {
  const lines = text.split("\n");
  if (lines[lines.length - 1] === "") lines.pop();
  return lines;
}

/**
 * @param {string} line
 * @returns {Refusal | null}
 */
function refusalOf(line) {
  const found = REFUSAL.exec(line);
  if (!found) return null;
  return { place: Number(found[1]), length: Number(found[2]), number: Number(found[3]), name: found[4] };
}

// Reads numbers from a place of a text on.
class Reader {
  /** @param {string} text */
  constructor(text) {
    this.text = text;
    this.at = 0;
  }

  // The decimal number at the place, without leading zeros, and the space after it; -1 where there is none.
  number() {
    let value = -1;
    let sign = this.text.charCodeAt(this.at);
    while (sign >= 0x30 && sign <= 0x39 && value !== 0 && value < MOST) {
      value = Math.max(value, 0) * 10 + sign - 0x30;
      sign = this.text.charCodeAt(++this.at);
    }
    if (sign !== 0x20) return -1;
    this.at++;
    return value;
  }
}

// The text of `changes` as it is read: cells and looks of all change lines, and the moments. A moment is a command that
// changes cells, or a refusal: its place, and how many change lines stand before it.
export class Course {
  /**
   * The looks are numbered among those that are known already.
   * @param {string} text
   * @param {Looks} [known]
   */
  constructor(text, known = new Looks()) {
    const room = Math.floor(text.length / SHORTEST) + 1;
    this.known = known;
    this.looks = this.known.list;
    this.cells = new Uint16Array(room);
    this.numbers = new Uint32Array(room);
    /** @type {Moment[]} */
    this.moments = [];
    this.count = 0;
  }

  /**
   * The moment at a place, the last one or a new one; null where the place can't come here.
   * @param {number} place
   * @param {Refusal | null} refusal
   * @returns {Moment | null}
   */
  momentAt(place, refusal) {
    const last = this.moments[this.moments.length - 1];
    if (last && last.place === place) return last.refusal || refusal ? null : last;
    if (last && last.place > place) return null;
    const moment = { place, first: this.count, refusal };
    this.moments.push(moment);
    return moment;
  }

  /**
   * Takes a change line, whose place the reader has reached; answers whether it is one.
   * @param {Reader} reader
   * @param {number} end
   */
  change(reader, end) {
    const [place, row, column] = [reader.number(), reader.number(), reader.number()];
    if (place < 0 || row < 1 || row > ROWS || column < 1 || column > COLUMNS) return false;
    const look = this.known.number(reader.text.slice(reader.at, end));
    if (look < 0 || !this.momentAt(place, null)) return false;
    this.cells[this.count] = (row - 1) * COLUMNS + column - 1;
    this.numbers[this.count] = look;
    this.count++;
    return true;
  }

  /** @param {string} line */
  refuse(line) {
    const refusal = refusalOf(line);
    return refusal !== null && this.momentAt(refusal.place, refusal) !== null;
  }
}

/**
 * Takes each line of a text into a course; `refuse` takes what begins as a refusal, and `other` what is no change line.
 * @param {Course} course
 * @param {string} text
 * @param {(line: string) => boolean} refuse
 * @param {string} kind
 * @param {(line: string) => boolean} [other]
 */
function taken(course, text, refuse, kind, other = () => false) {
  const reader = new Reader(text);
  for (let number = 1, start = 0; start < text.length; number++) {
    const feed = text.indexOf("\n", start);
    const end = feed < 0 ? text.length : feed;
    reader.at = start;
    const line = () => text.slice(start, end);
    const good = text[start] === "!" ? refuse(line()) : course.change(reader, end) || other(line());
    if (!good) throw new LineFault(number, line(), kind);
    start = end + 1;
  }
  return course;
}

/** @param {string} text */
export function readChanges(text) {
  const course = new Course(text);
  try {
    return taken(course, text, (line) => course.refuse(line), "notChanges");
  } catch (fault) {
    throw fault instanceof LineFault && OF_BYTES.test(String(fault.values.line)) ? new TextFault("noText") : fault;
  }
}

/**
 * The text of `trace`, whose moments are lines of a script: with the refusals of the page, and with the lines at which nothing could
 * be undone or redone. Looks are numbered among those that are known already.
 * @param {string} text
 * @param {Looks} known
 * @returns {Trace}
 */
export function readTrace(text, known) {
  /** @type {Refusal[]} */
  const refusals = [];
  /** @type {number[]} */
  const nothings = [];
  /** @param {string} line */
  const refuse = (line) => {
    const refusal = refusalOf(line);
    if (refusal) refusals.push(refusal);
    return refusal !== null;
  };
  /** @param {string} line */
  const other = (line) => {
    const found = NOTHING.exec(line);
    if (found) nothings.push(Number(found[1]));
    return found !== null;
  };
  return Object.assign(taken(new Course(text, known), text, refuse, "notTrace", other), { refusals, nothings });
}

/**
 * The text of `flash`: the grids of the six phases, whose numbers are among the looks that are known already. A phase to which
 * nothing changes is the one before it; the turn after the last leads back to the first.
 * @param {string} text
 * @param {Looks} known
 */
export function readFlash(text, known) {
  const { cells, numbers, moments, count } = taken(new Course(text, known), text, () => false, "notFlash");
  const phases = [new Uint32Array(CELLS)];
  for (let turn = 0; turn <= PHASES; turn++) {
    const at = moments.findIndex((moment) => moment.place === turn);
    if (turn && at < 0) phases[turn] = phases[turn - 1];
    if (at < 0) continue;
    if (turn) phases[turn] = phases[turn - 1].slice();
    const end = at + 1 < moments.length ? moments[at + 1].first : count;
    for (let line = moments[at].first; line < end; line++) phases[turn][cells[line]] = numbers[line];
  }
  const again = phases[PHASES];
  if (!again.every((number, cell) => number === phases[0][cell])) throw new TextFault("openFlash");
  return phases.slice(0, PHASES);
}

/**
 * The text of `cells`: looks, and a grid of their numbers.
 * @param {string} text
 * @returns {Cells}
 */
export function readCells(text) {
  const known = new Looks();
  const grid = new Uint32Array(CELLS);
  linesOf(text).forEach((line, index) => {
    const reader = new Reader(line);
    const [row, column] = [reader.number(), reader.number()];
    const inside = row >= 1 && row <= ROWS && column >= 1 && column <= COLUMNS;
    const look = inside ? known.number(line.slice(reader.at)) : -1;
    if (look < 0) throw new LineFault(index + 1, line, "notCells");
    grid[(row - 1) * COLUMNS + column - 1] = look;
  });
  return { looks: known.list, grid };
}

/**
 * The text of `check`: its refusals and the numbers of its last line.
 * @param {string} text
 * @returns {Check}
 */
export function readCheck(text) {
  const lines = linesOf(text);
  const refusals = lines.slice(0, -1).map((line, index) => {
    const refusal = refusalOf(line);
    if (!refusal) throw new LineFault(index + 1, line, "notRefusal");
    return refusal;
  });
  const last = CHECK.exec(lines[lines.length - 1] || "");
  if (!last) throw new LineFault(Math.max(lines.length, 1), lines[lines.length - 1] || "", "notCheck");
  return { refusals, items: Number(last[1]), refused: Number(last[2]) };
}
