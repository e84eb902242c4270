// The panel of mosaic signs, each of which a click writes at the caret.
import { Painter, readLook } from "./shared.js";
import { speak } from "./words.js";
import { choice, make, part, rove } from "./controls.js";

/** @typedef {import("./types.js").Sign} Sign */
/** @typedef {import("./types.js").Tell} Tell */

/**
 * @param {number} from
 * @param {number} to
 * @returns {number[]}
 */
const range = (from, to) => Array.from({ length: to - from + 1 }, (_, at) => from + at);
/**
 * @param {string} set
 * @param {number[]} codes
 * @returns {Sign[]}
 */
const of = (set, codes) => codes.map((code) => ({ set, code, accent: 0 }));
/** @type {Record<string, Sign[]>} */
export const PALETTES = {
  blocks: of("M", [...range(0x21, 0x3f), ...range(0x60, 0x7f)]),
  smooth: [...of("M", range(0x40, 0x5f)), ...of("N", range(0x60, 0x7e))],
  lines: of("N", range(0x40, 0x5e)),
};
const ACROSS = 16;

export class Mosaic {
  /** @param {Tell} tell */
  constructor(tell) {
    this.tell = tell;
    this.signs = make("div", { id: "mosaic-signs", role: "group", name: "palette" });
    const sets = choice("paletteSet", Object.keys(PALETTES).map((key) => [key, key]), (set) => this.fill(set), { id: "mosaic-set" });
    part("mosaic").append(make("div", { class: "group" }, sets, make("span", { class: "hint", word: "writeHint" })), this.signs);
    this.fill("blocks");
  }

  /**
   * Shows the signs of a palette.
   * @param {string} set
   */
  fill(set) {
    const buttons = PALETTES[set].map((sign) => {
      const code = `${sign.set} ${sign.code >> 4}/${sign.code & 15}`;
      const canvas = make("canvas", { width: 24, height: 30, "aria-hidden": true });
      const look = readLook(`${sign.set}${sign.code.toString(16).toUpperCase()} 11.00 FFF 000 S---`);
      if (look) new Painter(canvas, 24, 30).cell(look, 0, 0, 0, true);
      const write = () => this.tell({ kind: "write", signs: [sign] });
      return make("button", { type: "button", class: "sign", name: "code", values: { code }, onclick: write }, canvas);
    });
    this.signs.replaceChildren(...buttons);
    rove(buttons, ACROSS);
    speak(this.signs);
  }

  speak() {
    speak(part("mosaic"));
  }
}
