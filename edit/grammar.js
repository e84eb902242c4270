// The words of scripts and drawings, and what stands after each, as the man page of cept_tool has them. Which line is outside the grammar the
// program says; what here stands says why.
import { word } from "./words.js";
import { hex, inGrammar, plainerSign, toldSign, unknownIn } from "./lines.js";

/**
 * A number after a word: its name, the least and the most that are taken, and those between that aren't.
 * @typedef {{ name: string, least: number, most: number, without: number[] }} Taken
 */
/** @typedef {import("./types.js").Check} Check */
/** @typedef {"script" | "drawing"} Kind */

/**
 * @param {string} name
 * @param {number} least
 * @param {number} most
 * @param {number[]} without
 * @returns {Taken}
 */
const number = (name, least, most, ...without) => ({ name, least, most, without });
// So many signs of a word are told.
const LONGEST = 60;
const [TEXT, DIGITS] = ["SIGNS", "DIGITS"];
const CODE = [number("N", 0, 31, 27)];
const AREA = [number("A", 1, 24), number("B", 1, 24)];
const POINT = [number("X", 0, 79), number("Y", 0, 71)];
const LEVELS = ["R", "G", "B"].map((name) => number(name, 0, 15));
const ALONE = [
  "serial", "parallel", "erase", "clear", "home", "return", "back", "forward", "down", "up", "protect", "unprotect", "scrollup", "scrolldown",
  "implicit", "explicit", "undo", "redo",
];
/**
 * What each word takes: numbers, or signs or digits by their name.
 * @type {Record<Kind, Map<string, Taken[] | string>>}
 */
export const GRAMMAR = {
  script: new Map(Object.entries({
    at: [number("ROW", 1, 24), number("COLUMN", 1, 40)], text: TEXT, c1: CODE, row: CODE, screen: [number("N", 0, 31, 12, 13, 14, 15, 27)],
    table: [number("N", 0, 3)], colour: [number("N", 0, 31), ...LEVELS], repeat: [number("N", 0, 63)], area: AREA, noarea: AREA,
    revision: [number("N", 1, 2)], raw: DIGITS, ...Object.fromEntries(ALONE.map((name) => [name, []])),
  })),
  drawing: new Map(Object.entries({ plot: POINT, unplot: POINT, line: [...POINT, ...POINT], box: [...POINT, ...POINT], wipe: [...POINT, ...POINT] })),
};

/**
 * The first word of a text that isn't in a comment; empty where there is none.
 * @param {string} text
 */
const firstWord = (text) => (/^[ \t]*([^# \t\n][^ \t\n]*)/m.exec(text) || ["", ""])[1];

/**
 * Whether a text is lines of a drawing, as its first word says.
 * @param {string} text
 */
export const isDrawing = (text) => GRAMMAR.drawing.has(firstWord(text));

/**
 * How many letters are put in, left out, changed or swapped with their neighbour to come from one word to the other.
 * @param {string} one
 * @param {string} other
 */
function distance(one, other) {
  const rows = [Array.from({ length: other.length + 1 }, (_, to) => to)];
  for (let at = 1; at <= one.length; at++) {
    const [row, last] = [[at], rows[at - 1]];
    for (let to = 1; to <= other.length; to++) {
      const isSwapped = at > 1 && to > 1 && one[at - 2] === other[to - 1] && one[at - 1] === other[to - 2];
      const changed = last[to - 1] + Number(one[at - 1] !== other[to - 1]);
      row.push(Math.min(last[to] + 1, row[to - 1] + 1, changed, isSwapped ? rows[at - 2][to - 2] + 1 : changed));
    }
    rows.push(row);
  }
  return rows[one.length][other.length];
}

/**
 * The known word whose letters are nearest, or null where more than half of them would be others. A word's beginning stands for it.
 * @param {string} wanted
 * @param {string[]} known
 * @returns {string | null}
 */
export function nearest(wanted, known) {
  const lower = wanted.toLowerCase();
  const begun = known.filter((one) => lower.length > 1 && one.startsWith(lower)).sort((one, other) => one.length - other.length);
  if (begun.length) return begun[0];
  const [found] = known.map((one) => ({ one, far: distance(lower, one) })).sort((one, other) => one.far - other.far);
  return 2 * found.far <= found.one.length && found.far < lower.length ? found.one : null;
}

/**
 * Which numbers are taken.
 * @param {Taken} taken
 */
function rangeOf({ least, most, without }) {
  const range = word(most === least + 1 ? "rangeTwo" : "range", { least, most });
  if (!without.length) return range;
  const starts = without.filter((one) => !without.includes(one - 1));
  const runs = starts.map((first) => {
    let last = first;
    while (without.includes(last + 1)) last++;
    return first === last ? String(first) : word("range", { least: first, most: last });
  });
  return word("rangeWithout", { range, without: runs.join(word("rangeOr")) });
}

/**
 * A word as it is told: of a long one the beginning, and what can't be seen by its number.
 * @param {string} text
 */
function shortened(text) {
  const shown = text.length > LONGEST ? `${text.slice(0, LONGEST)}…` : text;
  return [...shown].map((sign) => (sign === " " ? sign : toldSign(sign))).join("");
}

/**
 * What is wrong with a number, or nothing.
 * @param {Taken} taken
 * @param {string} value
 */
function ofNumber(taken, value) {
  const [values, given] = [{ name: taken.name, value: shortened(value), range: rangeOf(taken) }, Number(value)];
  if (!/^\d{1,2}$/.test(value)) return word("noNumber", values);
  return given >= taken.least && given <= taken.most && !taken.without.includes(given) ? "" : word("otherNumber", values);
}

/**
 * @param {Taken[]} wanted
 * @param {string[]} values
 */
function ofNumbers(wanted, values) {
  const found = wanted.map((taken, at) => ofNumber(taken, values[at])).filter((fault) => fault);
  if (!found.length && wanted === AREA && Number(values[0]) > Number(values[1])) return word("otherOrder", { a: values[0], b: values[1] });
  return found.join("; ");
}

/**
 * @param {string} name
 * @param {Taken[] | string} wanted
 * @param {number} found
 */
function ofCount(name, wanted, found) {
  const names = typeof wanted === "string" ? [wanted] : wanted.map((taken) => taken.name);
  const key = names.length > 1 ? "otherCount" : names.length ? "otherCountOne" : "otherCountNone";
  const told = word(["foundNone", "foundOne"][found] || "foundMore", { found });
  return word(key, { name, names: names.join(" "), count: names.length, found: told });
}

/**
 * What is wrong with the digits of bytes, of which so many signs stand before them, or nothing.
 * @param {string} digits
 * @param {number} before
 */
function ofDigits(digits, before) {
  const signs = [...digits];
  const other = signs.findIndex((sign) => !/^[\dA-Fa-f]$/.test(sign));
  if (other >= 0) return word("noDigit", { sign: toldSign(signs[other]), place: before + other + 1 });
  return signs.length % 2 ? word("oddDigits", { count: signs.length }) : "";
}

/** @param {string} line */
function ofText(line) {
  const unknown = unknownIn(line);
  if (!unknown) return "";
  const by = plainerSign(unknown.sign);
  const sign = unknown.sign === "\t" ? word("tabSign") : toldSign(unknown.sign);
  return word(by ? "badSignPlainer" : "badSign", { sign, place: unknown.place, by });
}

/**
 * What is wrong with a first word that the kind doesn't have.
 * @param {string} name
 * @param {Kind} kind
 */
function ofName(name, kind) {
  const shown = shortened(name);
  if (kind === "script" && GRAMMAR.drawing.has(name)) return word("wordOfDrawings", { name });
  if (kind === "drawing" && GRAMMAR.script.has(name)) return word("wordOfScripts", { name });
  const near = nearest(name, [...GRAMMAR[kind].keys()]);
  return word(near ? "noWordNear" : "noWord", { name: shown, near });
}

/**
 * What is wrong with a line as far as its own words tell, or nothing.
 * @param {string} line
 * @param {Kind} kind
 * @returns {string}
 */
export function wrongIn(line, kind) {
  const [name] = /^[^ \t]*/.exec(line.replace(/^[ \t]+/, "")) || [""];
  const wanted = GRAMMAR[kind].get(name);
  if (wanted === undefined) return ofName(name, kind);
  const values = inGrammar(line).split(" ").slice(1);
  if (wanted === TEXT) return values.length ? ofText(line) : word("noText");
  if (values.length !== (typeof wanted === "string" ? 1 : wanted.length)) return ofCount(name, wanted, values.length);
  if (typeof wanted !== "string") return ofNumbers(wanted, values);
  return ofDigits(values[0], [...line.replace(/[ \t]+$/, "")].length - [...values[0]].length);
}

/**
 * Which items of the bytes of a line `raw` the program refuses.
 * @param {string} line
 * @param {(page: Uint8Array) => Check} check
 */
function refusedIn(line, check) {
  const digits = inGrammar(line).split(" ")[1].match(/../g) || [];
  const page = Uint8Array.from(digits, (two) => parseInt(two, 16));
  return check(page).refusals.map((refusal) => {
    const { place, length } = refusal;
    return word("badItem", { ...refusal, item: hex(page.subarray(place, place + length)) });
  }).join("; ");
}

/**
 * Why the program refuses a line, for a reason that it names.
 * @param {{ name: string }} reason
 * @param {string} line
 * @param {Kind} kind
 * @param {(page: Uint8Array) => Check} check
 */
export function whyBad({ name }, line, kind, check) {
  return (name === "BadBytes" ? refusedIn(line, check) : wrongIn(line, kind)) || word(name);
}
