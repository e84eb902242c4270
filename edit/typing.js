// Writing at the caret. The caret is the place of the next line `at`; after writing it is where the program says that it would go on.
import { COLUMNS, ROWS } from "./shared.js";
import { word } from "./words.js";
import { TALLER, WIDER, knownSigns, linesOfSigns, plainer, signOf, signsIn, toldSign } from "./lines.js";
import { KEPT, isEdit } from "./sheet.js";

/** @typedef {import("./types.js").Look} Look */
/** @typedef {import("./types.js").Sign} Sign */
/** @typedef {import("./types.js").Tell} Tell */

/**
 * The script, the pen, whether lines can be added at the caret, and a key that something else takes before.
 * @typedef {{
 *   sheet: import("./sheet.js").Sheet, pen: { key: () => string, lines: () => { set: string[], lines: string[] } },
 *   ready: () => boolean, drawingKey: (event: KeyboardEvent) => boolean,
 * }} Needs
 */

/**
 * Signs that were typed one after the other: the lines before them, the caret and the pen where they begin, the number of lines of the
 * script before their action, and before their own lines.
 * @typedef {{ signs: Sign[], lead: string[], begun: [number, number, string | null], before: number, from: number }} Stretch
 */

const SPACE = "text  ";
// Of signs that are left out so many are named.
const MOST_NAMED = 40;
// A tab leads to the next of the columns 1, 9, 17 and so on.
const TAB = 8;
const BLANK = { set: "P", code: 0x20, accent: 0 };
/** @param {Sign} sign */
const isLetter = ({ set }) => set === "P" || set === "S";
/**
 * Whether a look is that of a sign, as far as its code tells.
 * @param {Look} look
 * @param {Sign} sign
 */
const shows = (look, { set, code }) => (look.kind === "sign" ? look.code === code : look.kind === "pattern" ? set === "D" : code === BLANK.code);

/**
 * The signs of a line that begins in a column, each so many columns wide, with spaces in the place of a tab; where none of this width ends at
 * the column of the tab they lead past it. Past the last column it goes on in the first one.
 * @param {string} line
 * @param {number} column
 * @param {number} width
 * @returns {string[]}
 */
export function spread(line, column, width) {
  let at = column - 1;
  return signsIn(line).flatMap((sign) => {
    const signs = sign === "\t" ? new Array(Math.ceil((TAB - (at % TAB)) / width)).fill(" ") : [sign];
    at += width * signs.filter((one) => signOf(one)).length;
    if (at >= COLUMNS) at = 0;
    return signs;
  });
}

/**
 * What is said of signs that no set has: how many they are, and each once.
 * @param {string[]} signs
 */
export function leftOut(signs) {
  const names = [...new Set(signs.map(toldSign))];
  const more = names.length > MOST_NAMED ? " …" : "";
  return signs.length === 1 ? word("noSign", { sign: names[0] })
    : word("noSigns", { count: signs.length, signs: names.slice(0, MOST_NAMED).join(" ") + more });
}

export class Typing {
  /**
   * @param {Needs} needs
   * @param {Tell} tell
   */
  constructor(needs, tell) {
    this.needs = needs;
    this.tell = tell;
    this.row = 1;
    this.column = 1;
    // How many signs of the stretch are being composed.
    this.composing = 0;
    /** @type {Stretch | null} */
    this.stretch = null;
    /** @type {string | null} */
    this.said = null;
    // How many lines the script had before a text that is being typed, all of which is one action; infinite while none is.
    this.before = Infinity;
    /**
     * What is to be said of what is done, once it is done; null while nothing is.
     * @type {Set<string> | null}
     */
    this.remarks = null;
  }

  reset() {
    this.place(1, 1);
    this.said = null;
  }

  /**
   * Puts the caret at a cell of the format, and ends the stretch of typing.
   * @param {number} row
   * @param {number} column
   */
  place(row, column) {
    this.composing = 0;
    this.row = Math.min(this.needs.sheet.rows, Math.max(1, row));
    this.column = Math.min(COLUMNS, Math.max(1, column));
    this.stretch = null;
    this.said = null;
  }

  // Puts the caret into the format, where that has become another.
  bound() {
    if (this.row > this.needs.sheet.rows) this.place(this.row, this.column);
  }

  // Ends the stretch of typing.
  end() {
    this.stretch = null;
  }

  // Ends it, where lines were added that aren't of the caret: which pen is in force there isn't known.
  leave() {
    this.stretch = this.said = null;
  }

  cell() {
    return (this.row - 1) * COLUMNS + this.column - 1;
  }

  at() {
    return `at ${this.row} ${this.column}`;
  }

  /**
   * The lines that lead to the caret with the chosen pen: none where the program is there with it.
   * @returns {string[]}
   */
  lead() {
    const { set, lines } = this.needs.pen.lines();
    return this.said === this.needs.pen.key() ? set : [...set, this.at(), ...lines];
  }

  /**
   * Goes to where the program would write next. `said` is the pen that is in force there, or null where that isn't known.
   * @param {string | null} said
   */
  arrive(said) {
    const { at } = this.needs.sheet;
    [this.row, this.column] = [Math.floor(at / COLUMNS) + 1, (at % COLUMNS) + 1];
    this.said = said;
  }

  /**
   * Does something, and once it is done says what was remarked meanwhile, each remark once.
   * @param {() => void} act
   */
  remarked(act) {
    const [outer, remarks] = [this.remarks, this.remarks || new Set()];
    this.remarks = remarks;
    try {
      act();
    } finally {
      this.remarks = outer;
    }
    if (!outer && remarks.size) this.tell({ kind: "said", text: [...remarks].join(" "), lasts: true });
  }

  /** @param {string} text */
  remark(text) {
    if (this.remarks) this.remarks.add(text);
  }

  /**
   * Does something that goes on at the caret. Past the last row that is in the first one, which is said: where the caret is in a row above
   * then, or what is done leads there in any case.
   * @param {() => void} act
   * @param {boolean} [isPast]
   */
  onward(act, isPast = false) {
    const { row } = this;
    this.remarked(() => {
      act();
      if ((isPast || this.row < row) && !this.composing) this.remark(word("pastEnd"));
    });
  }

  // How many columns a sign takes by what is chosen. Under the serial set that a marker says, and here it is one.
  width() {
    return this.needs.pen.lines().lines.some((line) => WIDER.includes(line)) ? 2 : 1;
  }

  /**
   * Whether so many signs from the caret on lead past the last row of the format, and no area scrolls instead.
   * @param {number} count
   */
  isPast(count) {
    const { rows, wrap, first, last, implicit } = this.needs.sheet.live.state();
    const scrolls = implicit === 1 && first > 0 && last <= rows && this.row <= last;
    return wrap === 1 && !scrolls && this.cell() + count * this.width() >= rows * COLUMNS;
  }

  /**
   * Types a text, of which each further line begins a new row. All of it is one action, or goes on with the one under way.
   * @param {string} text
   */
  type(text) {
    if (!this.needs.ready()) return;
    const { sheet } = this.needs;
    /** @type {Map<string, string>} */
    const replaced = new Map();
    const [lines, before] = [text.split(/\r\n?|\n/).map((line) => plainer(line, replaced)), sheet.lines.length];
    this.remarked(() => {
      this.before = before;
      const other = lines.flatMap((line, at) => {
        if (at) this.newLine();
        return this.typeLine(line);
      });
      this.before = Infinity;
      const count = lines.length > 1 ? sheet.lines.slice(before).filter(isEdit).length : 0;
      if (replaced.size) this.remark(word("replaced", { signs: [...replaced].map(([sign, by]) => `${sign} → ${by}`).join(", ") }));
      if (other.length) this.remark(leftOut(other));
      if (count > KEPT) this.remark(word("manyEdits", { count }));
    });
  }

  /**
   * Types a line. Answers its signs that no set has, which aren't written.
   * @param {string} line
   */
  typeLine(line) {
    const signs = spread(line, this.column, this.width());
    const known = signs.flatMap((sign) => signOf(sign) || []);
    if (known.length) this.write(known);
    return signs.filter((sign) => !signOf(sign));
  }

  /**
   * Writes signs: into the line of the stretch where there is one of such signs.
   * @param {Sign[]} signs
   */
  write(signs) {
    if (!this.needs.ready()) return;
    this.onward(() => this.watched(signs[0], () => {
      if (!this.stretch || this.stretch.signs.some((sign) => isLetter(sign) !== isLetter(signs[0]))) return this.begin(signs);
      this.stretch.signs.push(...signs);
      return this.restate();
    }), this.isPast(signs.length));
  }

  /**
   * Writes signs, of which the first belongs at the caret. Says so where no cell changes and this one shows another: it is protected, or a
   * larger sign covers it; and where it is the last row, in which nothing is high, under a size that is. What is being composed stands
   * before the caret already.
   * @param {Sign} sign
   * @param {() => void} write
   */
  watched(sign, write) {
    const { making, known } = this.needs.sheet;
    const [cell, before] = [this.cell(), making.end().slice()];
    write();
    const after = making.end();
    const isSame = !this.composing && before.every((number, at) => number === after[at]);
    if (isSame && !shows(known.list[after[cell]], sign)) this.remark(word("stays"));
    else if (known.list[after[cell]].high === 1) this.flatIn(cell, this.needs.pen.lines().lines);
  }

  /**
   * Says so where lines make signs high in the last row of the format.
   * @param {number} cell
   * @param {string[]} lines
   */
  flatIn(cell, lines) {
    if (cell >= (this.needs.sheet.rows - 1) * COLUMNS && lines.some((line) => TALLER.includes(line))) this.remark(word("flat"));
  }

  /**
   * Adds lines: behind the first ones of a text they go on with its action.
   * @param {string[]} lines
   */
  add(lines) {
    const { sheet } = this.needs;
    return sheet.add(lines, sheet.lines.length > this.before);
  }

  /**
   * Begins a stretch with signs.
   * @param {Sign[]} signs
   */
  begin(signs) {
    const { sheet } = this.needs;
    const [lead, before] = [this.lead(), sheet.lines.length];
    /** @type {Stretch["begun"]} */
    const begun = [this.row, this.column, this.said];
    const from = this.add([...lead, ...linesOfSigns(signs)]);
    this.stretch = { signs: [...signs], lead, begun, before, from };
    this.arrive(this.needs.pen.key());
    this.tell({ kind: "changed" });
  }

  /**
   * What is being composed, as by a dead key or on a screen's keyboard, stands in the stretch from the first key on, and is replaced
   * until it is done.
   * @param {string} text
   */
  compose(text) {
    const signs = knownSigns(text);
    if (this.composing && this.stretch) this.stretch.signs.splice(-this.composing);
    const before = this.composing;
    this.composing = signs.length;
    if (signs.length) this.write(signs);
    else if (before && this.stretch) this.restate();
  }

  // Puts the line of the stretch anew; where nothing is left of it, its action goes.
  restate() {
    if (!this.stretch) return;
    const { signs, lead, begun, before, from } = this.stretch;
    const { sheet } = this.needs;
    sheet.change(signs.length ? from : before, signs.length ? [...lead, ...linesOfSigns(signs)] : []);
    if (signs.length) this.arrive(this.needs.pen.key());
    else {
      this.stretch = null;
      [this.row, this.column, this.said] = begun;
    }
    this.tell({ kind: "changed" });
  }

  // Takes back the sign that was typed last; where none was, a space is written one place before.
  backspace() {
    if (!this.needs.ready()) return;
    if (this.stretch) {
      this.stretch.signs.pop();
      this.restate();
      return;
    }
    if (this.row === 1 && this.column === 1) return;
    const cell = this.cell() - 1;
    this.wipe(Math.floor(cell / COLUMNS) + 1, (cell % COLUMNS) + 1);
  }

  /**
   * Writes a space at a place, and stays there.
   * @param {number} row
   * @param {number} column
   */
  wipe(row, column) {
    if (!this.needs.ready()) return;
    this.place(row, column);
    this.remarked(() => this.watched(BLANK, () => {
      this.needs.sheet.add([this.at(), SPACE]);
      this.tell({ kind: "changed" });
    }));
  }

  // To the first column of the next row in which no sign from above reaches.
  newLine() {
    if (!this.needs.ready()) return;
    const { said, needs: { sheet } } = this;
    const lines = [...(said === null ? [this.at()] : []), "return", "down"];
    this.stretch = null;
    this.onward(() => {
      const from = this.add(lines);
      this.arrive(said);
      if (this.isCovered()) {
        sheet.change(from, [...lines, "down"]);
        this.arrive(said);
      }
      this.tell({ kind: "changed" });
    });
  }

  isCovered() {
    const { making, known } = this.needs.sheet;
    const first = (this.row - 1) * COLUMNS;
    return making.end().subarray(first, first + COLUMNS).some((number) => known.list[number].down > 0);
  }

  /**
   * Adds lines at the caret, as the markers of the serial set.
   * @param {string[]} lines
   */
  act(lines) {
    if (!this.needs.ready()) return;
    const [lead, cell] = [this.lead(), this.cell()];
    this.stretch = null;
    this.onward(() => {
      this.needs.sheet.add([...lead, ...lines]);
      this.flatIn(cell, lines);
      this.arrive(this.needs.pen.key());
      this.tell({ kind: "changed" });
    });
  }

  /**
   * @param {number} rows
   * @param {number} columns
   */
  move(rows, columns) {
    this.place(this.row + rows, this.column + columns);
    this.tell({ kind: "moved" });
    this.tell({ kind: "arrived" });
  }

  /**
   * What a key does; false where it does nothing here.
   * @param {{ key: string, ctrlKey: boolean }} event
   */
  key(event) {
    /** @type {Record<string, [number, number]>} */
    const moves = {
      ArrowUp: [-1, 0], ArrowDown: [1, 0], ArrowLeft: [0, -1], ArrowRight: [0, 1], Home: [0, -COLUMNS], End: [0, COLUMNS],
      PageUp: [-ROWS, 0], PageDown: [ROWS, 0],
    };
    if (event.key === "Home" && event.ctrlKey) this.move(-ROWS, -COLUMNS);
    else if (moves[event.key]) this.move(...moves[event.key]);
    else if (event.key === "Enter") this.newLine();
    else if (event.key === "Backspace") this.backspace();
    else if (event.key === "Delete") this.wipe(this.row, this.column);
    else return false;
    return true;
  }

  /**
   * Joins the field in which a person types.
   * @param {HTMLTextAreaElement} field
   */
  join(field) {
    const take = () => {
      const text = field.value;
      field.value = "";
      if (text) this.type(text);
    };
    field.addEventListener("keydown", (event) => {
      if (event.isComposing || event.altKey || event.metaKey) return;
      if (!this.needs.drawingKey(event) && !this.key(event)) return;
      event.preventDefault();
    });
    field.addEventListener("beforeinput", (event) => {
      // What a keyboard on a screen says in place of keys.
      if (event.inputType === "deleteContentBackward" && !field.value) this.backspace();
      else if (event.inputType === "insertLineBreak") this.newLine();
      else return;
      event.preventDefault();
    });
    field.addEventListener("input", (event) => {
      if (event instanceof InputEvent && event.isComposing) this.compose(field.value);
      else take();
    });
    field.addEventListener("compositionend", () => {
      const text = field.value;
      field.value = "";
      this.compose("");
      if (text) this.type(text);
    });
  }
}
