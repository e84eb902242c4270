// Signs in Unicode: the profile knows a sign by its set and code.

/** @typedef {import("./types.js").Sign} Sign */

// Which sign of Unicode a code is: the combining mark of an accent, the signs of the supplementary set from a code on, where a code that
// is in no text has no sign, and the one sign of the primary set that isn't that of ASCII. It is JSON: btx/letters.py reads it here.
const FACTS = {
  "marks": {
    "41": "\u0300", "42": "\u0301", "43": "\u0302", "44": "\u0303", "45": "\u0304", "46": "\u0306", "47": "\u0307",
    "48": "\u0308", "4A": "\u030a", "4B": "\u0327", "4D": "\u030b", "4E": "\u0328", "4F": "\u030c"
  },
  "supplementary": {
    "21": "¡¢£$¥#§¤‘“«←↑→↓°±²³×µ¶·÷’”»¼½¾¿",
    "50": "―¹®©™♪",
    "60": "ΩÆĐªĦ",
    "66": "ĲĿŁØŒºÞŦŊŉĸæđðħıĳŀłøœßþŧŋ"
  },
  "primary": { "7F": "■" }
};
/** @param {Record<string, string>} table */
const codesOf = (table) => new Map(Object.entries(table).map(([code, sign]) => [parseInt(code, 16), sign]));
const MARKS = codesOf(FACTS.marks);
const SUPPLEMENTARY = codesOf(FACTS.supplementary);
const PRIMARY = codesOf(FACTS.primary);
const NO_SIGN = "\ufffd";
const MOSAIC = "\u2592";
const SQUARE = "\u25a1";

/** @param {number} code */
function supplementary(code) {
  for (const [first, signs] of SUPPLEMENTARY) {
    const index = code - first;
    if (index >= 0 && index < signs.length) return signs[index];
  }
  return NO_SIGN;
}

/**
 * The sign of a look as `show` puts it.
 * @param {Sign & { kind: string }} look
 */
export function unicodeOf(look) {
  if (look.kind === "pattern" || look.set === "D") return SQUARE;
  if (look.set === "M" || look.set === "N") return MOSAIC;
  if (look.set === "S") return supplementary(look.code);
  return PRIMARY.get(look.code) || String.fromCharCode(look.code) + (MARKS.get(look.accent) || "");
}
