// The items of a stored page, as `list` has them: the screen after each, which of them made a cell, and the lines of a script that do the same
// as those behind a place.
import { TextFault, unicodeOf } from "./shared.js";
import { hex, inGrammar } from "./lines.js";

/** @typedef {import("./types.js").Course} Course */
/** @typedef {import("./types.js").Look} Look */

/**
 * An item: how many bytes stand before it, how many it has, its short name, and its parameters.
 * @typedef {{ place: number, length: number, name: string, words: string[] }} Item
 */

const ITEM = /^(0|[1-9]\d*) ([1-9]\d*) ([A-Z][A-Z0-9-]*)((?: [^ ]+)*)$/;
// What does nothing, and can't stand in a script.
const DEAD = ["REFUSED", "SKIPPED"];
const [GRAPHIC, LOCK, SHIFTS] = ["GRAPHIC", "LS0", ["SS2", "SS3"]];
/** @type {(word: string) => (words: string[]) => string} */
const plain = (word) => () => word;
/** @type {(word: string) => (words: string[]) => string} */
const numbered = (word) => (words) => [word, ...words].join(" ");
/** @type {(word: string) => (words: string[]) => string} */
const coded = (word) => ([code]) => {
  const [column, row] = code.split("/").map(Number);
  return `${word} ${16 * (column - 8) + row}`;
};
/**
 * The line of a script that says what an item says, by its name, of its parameters.
 * @type {Record<string, (words: string[]) => string>}
 */
const LINES = {
  CAN: plain("erase"), CS: plain("clear"), APH: plain("home"), APR: plain("return"), APB: plain("back"), APF: plain("forward"),
  APD: plain("down"), APU: plain("up"), APA: numbered("at"), RPT: numbered("repeat"), C1D: ([set]) => set, C1: coded("c1"), ROW: coded("row"),
  SCREEN: coded("screen"), CT1: plain("table 0"), CT2: plain("table 1"), CT3: plain("table 2"), CT4: plain("table 3"), PMS: plain("protect"),
  PMC: plain("unprotect"), AIS: plain("implicit"), DIS: plain("explicit"), CSA: numbered("area"), DSA: numbered("noarea"),
  SCU: plain("scrollup"), SCD: plain("scrolldown"), REVISION: numbered("revision"),
};

/**
 * The text of `list`.
 * @param {string} text
 * @returns {Item[]}
 */
export function readItems(text) {
  return text.split("\n").slice(0, -1).map((line, index) => {
    const found = ITEM.exec(line);
    if (!found) throw new TextFault("notItems", { number: index + 1, line });
    return { place: Number(found[1]), length: Number(found[2]), name: found[3], words: found[4].split(" ").slice(1) };
  });
}

/** @param {Item} item */
export const whatOf = ({ name, words }) => [name, ...words].join(" ");
/** @param {Item} item */
export const endOf = ({ place, length }) => place + length;

/**
 * The first of numbers that go up from which on something holds, or how many there are.
 * @param {number} count
 * @param {(at: number) => boolean} holds
 */
function firstOf(count, holds) {
  let [low, high] = [0, count];
  while (low < high) {
    const middle = (low + high) >> 1;
    if (holds(middle)) high = middle;
    else low = middle + 1;
  }
  return low;
}

// The items of a page with what each changes.
export class PageItems {
  /**
   * @param {Uint8Array} page
   * @param {Item[]} items
   * @param {Course} course
   */
  constructor(page, items, course) {
    this.page = page;
    this.items = items;
    this.course = course;
  }

  /**
   * How many changes the first so many items make.
   * @param {number} count
   */
  changesOf(count) {
    const { moments, count: all } = this.course;
    if (count >= this.items.length) return all;
    const { place } = this.items[count];
    const at = firstOf(moments.length, (moment) => moments[moment].place >= place);
    return at < moments.length ? moments[at].first : all;
  }

  /**
   * The grid after the first so many items.
   * @param {number} count
   * @param {number} cells
   */
  grid(count, cells) {
    const grid = new Uint32Array(cells);
    const end = this.changesOf(count);
    for (let change = 0; change < end; change++) grid[this.course.cells[change]] = this.course.numbers[change];
    return grid;
  }

  /**
   * The cells that an item changes.
   * @param {number} index
   * @returns {number[]}
   */
  cellsOf(index) {
    return [...new Set(this.course.cells.subarray(this.changesOf(index), this.changesOf(index + 1)))];
  }

  /**
   * The last of the first so many items that changed a cell, or -1.
   * @param {number} cell
   * @param {number} count
   */
  madeBy(cell, count) {
    let change = this.changesOf(count) - 1;
    while (change >= 0 && this.course.cells[change] !== cell) change--;
    if (change < 0) return -1;
    const { moments } = this.course;
    const { place } = moments[firstOf(moments.length, (at) => moments[at].first > change) - 1];
    return firstOf(this.items.length, (at) => this.items[at].place > place) - 1;
  }

  /**
   * How many bytes the first so many items have.
   * @param {number} count
   */
  bytesOf(count) {
    return count < this.items.length ? this.items[count].place : this.page.length;
  }

  /** @param {Item} item */
  bytesIn(item) {
    return this.page.subarray(item.place, endOf(item));
  }

  /**
   * What an item writes: empty for a shift or an accent that waits for its sign, null where it writes no letter. A sign that changes nothing
   * is known by its byte where that is one of `text`, and else is taken for a blank.
   * @param {number} index
   * @param {Taking} before
   * @param {Taking} after
   */
  letterOf(index, before, after) {
    const { name } = this.items[index];
    if (after.waits && [GRAPHIC, ...SHIFTS].includes(name)) return "";
    if (name !== GRAPHIC) return null;
    const change = this.changesOf(index);
    if (change === this.changesOf(index + 1)) {
      const [code] = this.bytesIn(this.items[index]);
      return before.isText && code < 0x80 ? unicodeOf({ kind: "sign", set: "P", code, accent: 0 }) : " ";
    }
    const look = this.course.looks[this.course.numbers[change]];
    return look.kind === "space" ? " " : look.kind === "sign" && ["P", "S"].includes(look.set) ? unicodeOf(look).normalize("NFC") : null;
  }

  /**
   * The items behind the first so many that do something, each with its letter.
   * @param {number} count
   * @param {Reads} reads
   * @returns {Written[]}
   */
  writtenAfter(count, reads) {
    const items = this.items.slice(count);
    const taken = reads.takings(this.page, [...items.map(({ place }) => place), this.page.length]);
    const written = items.map((item, at) => ({ item, letter: this.letterOf(count + at, taken[at], taken[at + 1]), isText: taken[at].isText }));
    return written.filter(({ item }) => !DEAD.includes(item.name));
  }
}

/**
 * How bytes are taken at a place of a page: whether left ones are letters, as behind the lock of `text`, and whether a shift or an accent
 * waits for its sign.
 * @typedef {{ isText: boolean, waits: boolean }} Taking
 */

/**
 * What reads bytes: the items of these by themselves, and how those of a page are taken at some places, each behind the one before.
 * @typedef {{ list: (bytes: Uint8Array) => Item[], takings: (page: Uint8Array, places: number[]) => Taking[] }} Reads
 */

/**
 * An item with what it writes, and whether `text` may write it.
 * @typedef {{ item: Item, letter: string | null, isText: boolean }} Written
 */

/**
 * Items that become one line: the line that says them, or null where their bytes do; and the letters that these write.
 * @typedef {{ items: Item[], line: string | null, letters: string }} Piece
 */

/**
 * The line that says an item in words, or null where there is none.
 * @param {Item} item
 */
const lineOfItem = ({ name, words }) => (LINES[name] ? LINES[name](words) : null);

/**
 * Behind which of some items the letters end that begin with one of them; a shift or an accent belongs to the letter behind it.
 * @param {Written[]} written
 * @param {number} from
 */
function endOfLetters(written, from) {
  let end = from;
  for (let at = from; at < written.length && written[at].letter !== null; at++) if (written[at].letter) end = at + 1;
  return end;
}

/**
 * The line `text` that locks G0 and writes letters, or null where it can't say them.
 * @param {Written[]} letters
 * @param {PageItems} all
 */
function textOf(letters, all) {
  const codes = letters.flatMap(({ item }) => [...all.bytesIn(item)]);
  const line = `text ${codes.map((code) => String.fromCharCode(code)).join("")}`;
  const isPlain = letters.every(({ letter, isText }) => letter && isText) && codes.every((code) => code >= 0x20 && code < 0x7f);
  return isPlain && inGrammar(line) === line ? line : null;
}

/**
 * The pieces of items one after the other: letters, with the lock before them; others that are said in words; and neighbours that bytes say.
 * @param {Written[]} written
 * @param {PageItems} all
 * @returns {Piece[]}
 */
function piecesOf(written, all) {
  /** @type {Piece[]} */
  const pieces = [];
  for (let at = 0; at < written.length;) {
    const first = at + (written[at].item.name === LOCK ? 1 : 0);
    const end = endOfLetters(written, first);
    const part = written.slice(at, Math.max(end, at + 1));
    const line = end > first ? textOf(written.slice(first, end), all) : lineOfItem(part[0].item);
    const letters = end > first ? part.map(({ letter }) => letter).join("").trim() : "";
    const last = pieces[pieces.length - 1];
    const isMore = last && [line, letters, last.line, last.letters].every((said) => !said);
    if (!isMore) pieces.push({ items: [], line, letters });
    for (const { item } of part) pieces[pieces.length - 1].items.push(item);
    at += part.length;
  }
  return pieces;
}

/**
 * @param {Item[]} items
 * @param {PageItems} all
 */
const bytesOfItems = (items, all) => Uint8Array.from(items.flatMap((item) => [...all.bytesIn(item)]));

/**
 * Whether the bytes of a piece are the same items by themselves: as letters are, and those inside a unit that began before aren't.
 * @param {Piece} piece
 * @param {PageItems} all
 * @param {Reads} reads
 */
function stands({ items, line, letters }, all, reads) {
  if (line || letters) return true;
  const found = reads.list(bytesOfItems(items, all));
  return found.length === items.length && found.every((item, at) => item.length === items[at].length && whatOf(item) === whatOf(items[at]));
}

/**
 * The pieces with each that bytes say joined to those before it as far as it needs them; null where the first needs more.
 * @param {Piece[]} pieces
 * @param {PageItems} all
 * @param {Reads} reads
 */
function joined(pieces, all, reads) {
  /** @type {Piece[]} */
  const done = [];
  for (const piece of pieces) {
    let whole = piece;
    while (!stands(whole, all, reads)) {
      const before = done.pop();
      if (!before) return null;
      whole = { items: [...before.items, ...whole.items], line: null, letters: "" };
    }
    done.push(whole);
  }
  return done;
}

/**
 * The lines of a piece: of bytes after a comment with the letters that they write.
 * @param {Piece} piece
 * @param {PageItems} all
 */
function linesOfPiece({ items, line, letters }, all) {
  return line ? [line] : [...(letters ? [`# ${letters}`] : []), `raw ${hex(bytesOfItems(items, all))}`];
}

/**
 * The lines that do the same as the items behind the first so many, and behind how many items they do: fewer where the first of these can't
 * stand by itself. In words where there are some, or by bytes alone; null where bytes that are refused can't be left out.
 * @param {PageItems} all
 * @param {number} count
 * @param {Reads} reads
 * @param {boolean} inWords
 * @returns {{ count: number, lines: string[] } | null}
 */
export function linesAfter(all, count, reads, inWords) {
  for (let from = count; from >= 0; from--) {
    const written = all.writtenAfter(from, reads);
    const items = written.map(({ item }) => item);
    const pieces = inWords ? piecesOf(written, all) : items.length ? [{ items, line: null, letters: "" }] : [];
    const found = joined(pieces, all, reads);
    if (found) return { count: from, lines: found.flatMap((piece) => linesOfPiece(piece, all)) };
  }
  return null;
}
