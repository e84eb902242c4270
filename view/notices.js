// What a decoder tells of a place, as the text that the program writes for it; and the bytes of keys.

/** @typedef {import("./types.js").Colour} Colour */
/** @typedef {import("./types.js").Notice} Notice */

const STEADY = "S";
// By the numbers of notices.
const FLASHES = "SFIR123";
/** @type {(number: bigint, digits: number) => string} */
const hex = (number, digits) => number.toString(16).toUpperCase().padStart(digits, "0");
const DIGITS = "0123456789ABCDEF";
/** @param {Colour} it */
export const colourText = (it) => (it.behind ? "---" : DIGITS[it.red] + DIGITS[it.green] + DIGITS[it.blue]);
/** @param {number} code */
const codeText = (code) => DIGITS[code >> 4] + DIGITS[code & 15];

/** @param {NonNullable<Notice["pattern"]>} pattern */
function patternText({ w, h, planes, inks, bits, colours }) {
  const words = bits.slice(0, Math.ceil((w * h * planes) / 64)).map((digits) => hex(digits, 16));
  return `%${w}x${h}x${planes}/${words.join("")}${inks ? "/" : ""}${colours.slice(0, inks).map(colourText).join("")}`;
}

/** @param {Notice} notice */
function shapeText({ sign, pattern }) {
  if (!sign.kind) return "-";
  return pattern ? patternText(pattern) : "PSMND"[sign.set] + codeText(sign.code) + (sign.accent ? `+${codeText(sign.accent)}` : "");
}

/**
 * @param {Notice} it
 * @param {string} flash
 */
function textOf(it, flash) {
  const flags = (it.conceal ? "c" : "-") + (it.lined ? "l" : "-") + (it.boxed ? "b" : "-");
  return `${shapeText(it)} ${it.h}${it.w}.${it.dy}${it.dx} ${colourText(it.fore)} ${colourText(it.back)} ${flash}${flags}`;
}

/**
 * The text of the look that a notice tells, as the program writes it; of one that flashes as it is seen.
 * @param {Notice} it
 */
export const lookText = (it) => textOf(it, STEADY);
/**
 * The same, with how it flashes.
 * @param {Notice} it
 */
export const flashingText = (it) => textOf(it, FLASHES[it.flash]);

// The bytes of keys: two of them begin and end a request.
/** @type {Record<string, number>} */
const KEYS = { "*": 0x13, "#": 0x1c };
/** @param {string} text */
export const bytesOfKeys = (text) => Uint8Array.from([...text].filter((sign) => sign < "\x7f"), (sign) => KEYS[sign] || sign.charCodeAt(0));
