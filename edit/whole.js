// The panels of rows, screen, area and format, and of colour entries.
import { ROWS } from "./shared.js";
import { speak, word } from "./words.js";
import { wrongIn } from "./grammar.js";
import { BACK, FORE, ROW_ALONE, WHOLE, colourLines, coloursLine, dclutLine, formatLine } from "./lines.js";
import { button, choice, group, inLine, make, numbers, part, rove, styleOf, swatch } from "./controls.js";

/** @typedef {import("./types.js").Tell} Tell */

/**
 * The script, the line that leads to the caret, and the paints and names of the entries as the program says them.
 * @typedef {{
 *   sheet: import("./sheet.js").Sheet, at: () => string, paints: () => string[], entryName: (entry: number) => string,
 * }} Needs
 */

const ENTRIES = Array.from({ length: 32 }, (_, entry) => entry);
/** @type {["r" | "g" | "b", string][]} */
const LEVELS = [["r", "levelRed"], ["g", "levelGreen"], ["b", "levelBlue"]];

/**
 * The entry that is chosen in a list of them, or null.
 * @param {HTMLSelectElement} select
 * @returns {number | null}
 */
const entryOf = (select) => (select.value === "" ? null : Number(select.value));

// Row, screen, area, format, and what is written at the caret.
export class Whole {
  /**
   * @param {Needs} needs
   * @param {Tell} tell
   */
  constructor(needs, tell) {
    this.needs = needs;
    this.tell = tell;
    /**
     * The fields of the area's first and last row.
     * @type {HTMLInputElement[]}
     */
    this.ends = [];
    /**
     * The choices of the format: how many rows, and whether a row goes on in the next.
     * @type {HTMLSelectElement[]}
     */
    this.formats = [];
    this.areaInForce = "";
    this.formatInForce = "";
    const attributes = [this.attributes("rowPart", "row"), this.attributes("screenPart", "screen")];
    part("sheet").append(...attributes, inLine(this.area(), this.format(), this.revision()), this.writing());
  }

  /**
   * Colours and attributes of the row of the caret, or of the screen, which are set together.
   * @param {string} key
   * @param {"row" | "screen"} kind
   */
  attributes(key, kind) {
    const entries = ENTRIES.map((entry) => /** @type {const} */ ([String(entry), "entry", { number: entry }]));
    /** @type {(name: string) => HTMLSelectElement} */
    const colours = (name) => choice(name, [["", name], ...entries], () => {}, { "data-kind": kind });
    const names = Object.keys(WHOLE).filter((name) => kind === "row" || !ROW_ALONE.includes(name));
    const attribute = choice("attribute", [["", "attribute"], ...names.map((name) => /** @type {const} */ ([name, name]))], () => {});
    const [back, fore] = [colours("back"), colours("fore")];
    const set = () => {
      const lines = colourLines(kind, [[entryOf(back), BACK], [entryOf(fore), FORE]], this.needs.sheet.inForce().table);
      if (attribute.value) lines.push(`${kind} ${WHOLE[attribute.value]}`);
      if (lines.length) this.act(lines, kind);
      // What was refused, since a line of the script is wrong, stays chosen.
      if (this.needs.sheet.fault) return;
      for (const select of [back, fore, attribute]) select.value = "";
    };
    return inLine(group(key, back, fore, attribute, button("apply", set, { "data-apply": kind })));
  }

  /**
   * Adds lines; those of a row after its place.
   * @param {string[]} lines
   * @param {string} [kind]
   */
  act(lines, kind) {
    this.tell({ kind: "act", lines: [...(kind === "row" ? [this.needs.at()] : []), ...lines] });
  }

  /**
   * Tells a line with numbers of fields as what its kind says; one that the script wouldn't take is refused, and it is said why.
   * @param {"act" | "mark"} kind
   * @param {string} text
   */
  asks(kind, text) {
    const why = wrongIn(text, "script");
    if (why) this.tell({ kind: "said", text: word("notTaken", { line: text.trim(), why }), isFault: true });
    else this.tell({ kind, lines: [text] });
  }

  area() {
    const [from, to] = [numbers("areaFrom", 1, ROWS, 5), numbers("areaTo", 1, ROWS, 20)];
    this.ends = [from, to];
    /** @type {(key: string, name: string) => HTMLElement} */
    const ofRows = (key, name) => button(key, () => this.asks("act", `${name} ${from.value} ${to.value}`));
    /** @type {(key: string, text: string) => HTMLElement} */
    const says = (key, text) => button(key, () => this.act([text]));
    return group("areaPart", from, to, ofRows("areaMake", "area"), ofRows("areaDrop", "noarea"), says("scrollUp", "scrollup"),
      says("scrollDown", "scrolldown"), says("implicit", "implicit"), says("explicit", "explicit"));
  }

  format() {
    const rows = choice("formatPart", [["24", "rows24"], ["20", "rows20"]], () => {});
    const wrap = choice("wrapPart", [["wrap", "wrap"], ["noWrap", "noWrap"]], () => {});
    this.formats = [rows, wrap];
    const set = () => this.act([formatLine(Number(rows.value), wrap.value === "wrap")]);
    return group("formatPart", rows, wrap, button("apply", set, { name: "formatHint", "data-apply": "format" }));
  }

  revision() {
    /** @type {(number: number, data?: Record<string, string>) => HTMLElement} */
    const says = (number, data) => button(`revision${number}`, () => this.act([`revision ${number}`]), data);
    return group("revisionPart", says(1), says(2, { name: "revision2Hint" }));
  }

  writing() {
    const times = numbers("repeatCount", 0, 63, 10);
    /** @type {(key: string, text: () => string) => HTMLElement} */
    const marks = (key, text) => button(key, () => this.asks("mark", text()));
    return group("writePart", button("clear", () => this.act(["clear"])), button("erase", () => this.act([this.needs.at(), "erase"])),
      marks("repeat", () => `repeat ${times.value}`), times, marks("protect", () => "protect"), marks("unprotect", () => "unprotect"));
  }

  // Shows area and format that are there, once they are others, and which of the modes are in force.
  show() {
    const { rows, wrap, first, last, implicit, revision, protect } = this.needs.sheet.live.state();
    const area = [first, last].join();
    if (first && area !== this.areaInForce) this.ends.forEach((field, at) => { field.value = String(at ? last : first); });
    this.areaInForce = area;
    const formats = [String(rows), wrap ? "wrap" : "noWrap"];
    if (formats.join() !== this.formatInForce) this.formats.forEach((select, at) => { select.value = formats[at]; });
    this.formatInForce = formats.join();
    const modes = { implicit: implicit === 1, explicit: implicit === 0, revision1: revision === 1, revision2: revision === 2,
      protect: protect === 1, unprotect: protect === 0 };
    for (const [key, is] of Object.entries(modes)) part("sheet").querySelector(`[data-word=${key}]`).setAttribute("aria-pressed", String(is));
  }

  speak() {
    speak(part("sheet"));
    this.show();
    for (const select of part("sheet").querySelectorAll("[data-kind]")) {
      for (const option of [...select.options].slice(1)) option.textContent = this.needs.entryName(Number(option.value));
    }
  }
}

// The 32 entries, each a line `colour`.
export class ColourPanel {
  /**
   * The paints and the names of the entries, and the entries of the inks of four-colour signs.
   * @param {Pick<Needs, "paints" | "entryName"> & { dclut: () => number[] }} needs
   * @param {Tell} tell
   */
  constructor(needs, tell) {
    this.needs = needs;
    this.tell = tell;
    this.entry = 1;
    this.levels = { r: 15, g: 0, b: 0 };
    this.dclutInForce = "";
    this.swatches = ENTRIES.map((number) => swatch("entry", { number }, () => this.take(number)));
    this.picker = make("input", { type: "color", name: "colourPick", oninput: () => this.pick(this.picker.value) });
    this.fields = LEVELS.map(([level, key]) => {
      const field = make("input", { type: "range", min: 0, max: 15, step: 1, name: key });
      field.addEventListener("input", () => this.level(level, Number(field.value)));
      return field;
    });
    const entries = () => ENTRIES.map((entry) => make("option", { value: entry }, String(entry)));
    this.dcluts = [0, 1, 2, 3].map((ink) => make("select", { name: "inkEntry", values: { ink } }, ...entries()));
    this.build();
  }

  build() {
    rove(this.swatches, 16);
    const levels = this.fields.map((field, at) => {
      return make("label", { class: "level" }, make("span", { word: LEVELS[at][1], "aria-hidden": true }), field);
    });
    const setDclut = () => this.act(dclutLine(this.dcluts.map((select) => Number(select.value))));
    part("colours").append(
      inLine(make("div", { id: "entries", class: "group", role: "group", name: "colourEntry" }, ...this.swatches)),
      inLine(make("span", { id: "colour-sample", "aria-hidden": true }), this.picker, ...levels),
      inLine(button("colourSet", () => this.set(), { class: "main" }), make("p", { class: "hint", id: "colour-words" })),
      inLine(group("dclut", ...this.dcluts, button("dclutSet", setDclut)), button("colourReset", () => this.act(coloursLine))),
    );
  }

  /** @param {string} text */
  act(text) {
    this.tell({ kind: "act", lines: [text] });
  }

  /** @param {number} entry */
  take(entry) {
    this.entry = entry;
    const paint = this.needs.paints()[entry];
    if (paint !== "---") [this.levels.r, this.levels.g, this.levels.b] = [...paint].map((digit) => parseInt(digit, 16));
    this.show();
  }

  /**
   * A colour of eight bits each, as the picker gives it: the nearest of four bits each.
   * @param {string} value
   */
  pick(value) {
    LEVELS.forEach(([level], at) => { this.levels[level] = Math.round(parseInt(value.slice(1 + 2 * at, 3 + 2 * at), 16) / 17); });
    this.show();
  }

  /**
   * @param {"r" | "g" | "b"} level
   * @param {number} value
   */
  level(level, value) {
    this.levels[level] = value;
    this.show();
  }

  set() {
    const { r, g, b } = this.levels;
    this.act(`colour ${this.entry} ${r} ${g} ${b}`);
  }

  // Shows the entries of the four inks that are there, once they are others.
  showDclut() {
    const dclut = this.needs.dclut();
    if (String(dclut) !== this.dclutInForce) this.dcluts.forEach((select, ink) => { select.value = String(dclut[ink]); });
    this.dclutInForce = String(dclut);
  }

  show() {
    this.showDclut();
    const paints = this.needs.paints();
    this.swatches.forEach((one, entry) => {
      one.style.background = styleOf(paints[entry]);
      one.setAttribute("aria-pressed", String(entry === this.entry));
      one.textContent = String(entry);
    });
    const { r, g, b } = this.levels;
    const digits = [r, g, b].map((level) => level.toString(16));
    this.picker.value = `#${digits.map((digit) => digit + digit).join("")}`;
    this.fields.forEach((field, at) => { field.value = String(this.levels[LEVELS[at][0]]); });
    part("colour-sample").style.background = `#${digits.join("")}`;
    part("colour-words").textContent = word("colourHint", { name: word("entry", { number: this.entry }), r, g, b });
  }

  speak() {
    speak(part("colours"));
    this.swatches.forEach((one, entry) => {
      one.setAttribute("aria-label", this.needs.entryName(entry));
      one.title = this.needs.entryName(entry);
    });
    this.show();
  }
}
