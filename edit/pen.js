// The panel of attributes. Under the parallel set what is chosen is said before what is written next; under the serial set each choice
// is a marker at the caret.
import { speak, word } from "./words.js";
import { BACK, COLOURS, FORE, MARKERS, PEN, bytesOfLine, colourLines, tableLines } from "./lines.js";
import { button, choice, group, inLine, make, part, reachShown, rove, styleOf, swatch } from "./controls.js";

/** @typedef {import("./types.js").Tell} Tell */

/**
 * The script, and the paints and names of the entries as the program says them.
 * @typedef {{ sheet: import("./sheet.js").Sheet, paints: () => string[], entryName: (entry: number) => string }} Needs
 */

const TABLES = [0, 1, 2, 3];
const SWITCHES = Object.keys(PEN.switches);
/** @type {["fore" | "back", number][]} */
const COLOURED = [["fore", FORE], ["back", BACK]];

export class Pen {
  /**
   * @param {Needs} needs
   * @param {Tell} tell
   */
  constructor(needs, tell) {
    this.needs = needs;
    this.tell = tell;
    this.set = "parallel";
    this.table = 0;
    /** @type {number | null} */
    this.fore = null;
    /** @type {number | null} */
    this.back = null;
    this.size = "normal";
    this.flash = "steady";
    /** @type {Set<string>} */
    this.on = new Set();
    // The buttons of each group, of which Tab reaches one.
    /** @type {HTMLElement[][]} */
    this.groups = [];
    this.flashes = choice("flash", Object.keys(PEN.flash).map((key) => [key, key]), (flash) => this.choose({ flash }));
    this.build();
  }

  // What is chosen, as one text.
  key() {
    const { set, fore, back, size, flash, on } = this;
    return set === "serial" ? set : JSON.stringify([fore, back, size, flash, [...on].sort()]);
  }

  /**
   * The lines that lead to the set, and those of the pen, which stand after `at`.
   * @returns {{ set: string[], lines: string[] }}
   */
  lines() {
    const { set, table } = this.needs.sheet.inForce();
    return { set: set === this.set ? [] : [this.set], lines: this.set === "serial" ? [] : this.chosenLines(table) };
  }

  // What is drawn with, as bytes: the same but for the size, with its table before each colour.
  bytes() {
    return this.chosenLines(null, "normal").flatMap(bytesOfLine);
  }

  /**
   * The lines of what is chosen under the parallel set, where a line has named the table last; the size may be another.
   * @param {string | null} table
   * @param {string} [size]
   * @returns {string[]}
   */
  chosenLines(table, size = this.size) {
    const attributes = [PEN.size[size], PEN.flash[this.flash]].flatMap((line) => line || []);
    const switches = SWITCHES.filter((key) => this.on.has(key)).map((key) => PEN.switches[key]);
    return [...colourLines("c1", COLOURED.map(([kind, first]) => [this[kind], first]), table), ...attributes, ...switches];
  }

  /**
   * A colour of the serial set: a marker.
   * @param {number} number
   * @param {number} first
   */
  mark(number, first) {
    this.tell({ kind: "mark", lines: [...tableLines(this.table, this.needs.sheet.inForce().table), `c1 ${first + number}`] });
  }

  /**
   * Takes another value of what can be chosen.
   * @param {Partial<Pick<Pen, "set" | "table" | "fore" | "back" | "size" | "flash" | "on">>} chosen
   */
  choose(chosen) {
    Object.assign(this, chosen);
    this.chosen();
  }

  chosen() {
    this.show();
    this.tell({ kind: "chosen" });
  }

  build() {
    /** @type {(attributes: Record<string, any>, act: () => void, text: string) => HTMLElement} */
    const plain = (attributes, act, text) => make("button", { type: "button", ...attributes, onclick: act }, text);
    const sets = ["parallel", "serial"].map((set) => button(set, () => this.choose({ set }), { "data-set": set, name: `${set}Hint` }));
    const tables = TABLES.map((number) => plain({ "data-table": number }, () => this.choose({ table: number }), String(number)));
    const colours = COLOURED.map(([kind, first]) => group(kind, plain({ "data-none": kind }, () => this.choose({ [kind]: null }), "–"),
      ...COLOURS.map((_, number) => swatch("entry", { number, kind }, () => this.colour(kind, number, first)))));
    const size = group("size", ...Object.keys(PEN.size).map((key) => button(key, () => this.choose({ size: key }), { "data-size": key })));
    const flash = group("flash", this.flashes);
    const more = group("more", ...SWITCHES.map((key) => button(key, () => this.toggle(key), { "data-on": key })));
    const back = button("plain", () => this.plain(), { name: "plainName", id: "pen-plain" });
    /** @type {(key: string) => () => void} */
    const marks = (key) => () => this.tell({ kind: "mark", lines: [MARKERS[key]] });
    const markers = Object.keys(MARKERS).map((key) => button(key, marks(key), { "data-marker": key }));
    part("pen").append(
      inLine(group("mode", ...sets), group("table", ...tables), back),
      make("div", { class: "line", id: "pen-colours" }, ...colours),
      make("div", { id: "pen-parallel" }, inLine(size, flash), inLine(more)),
      make("div", { id: "pen-serial" }, group("more", ...markers)),
    );
    this.groups = this.all(".group").map((list) => Array.from(list.querySelectorAll("button")));
    this.groups.forEach((list) => rove(list));
  }

  /**
   * The entry that is chosen for foreground or background; null is none.
   * @param {string | undefined} kind
   */
  entryOf(kind) {
    return kind === "fore" ? this.fore : this.back;
  }

  /**
   * The elements of the panel of some kind.
   * @param {string} selector
   * @returns {HTMLElement[]}
   */
  all(selector) {
    return Array.from(part("pen").querySelectorAll(selector));
  }

  /**
   * @param {"fore" | "back"} kind
   * @param {number} number
   * @param {number} first
   */
  colour(kind, number, first) {
    if (this.set === "serial") this.mark(number, first);
    else this.choose({ [kind]: 8 * this.table + number });
  }

  /** @param {string} key */
  toggle(key) {
    if (!this.on.delete(key)) this.on.add(key);
    this.chosen();
  }

  plain() {
    this.choose({ fore: null, back: null, size: "normal", flash: "steady", on: new Set() });
  }

  // Shows what is chosen, and the colours as the program says that they are.
  show() {
    /** @type {(attribute: string, is: (value: string) => boolean) => void} */
    const pressed = (attribute, is) => {
      for (const one of this.all(`[data-${attribute}]`)) one.setAttribute("aria-pressed", String(is(one.dataset[attribute] || "")));
    };
    const paints = this.needs.paints();
    pressed("set", (set) => set === this.set);
    pressed("table", (table) => Number(table) === this.table);
    pressed("none", (kind) => this.entryOf(kind) === null);
    pressed("size", (key) => key === this.size);
    this.flashes.value = this.flash;
    pressed("on", (key) => this.on.has(key));
    for (const one of this.all(".swatch")) {
      const entry = 8 * this.table + (Number(one.dataset.number) % 8);
      one.dataset.number = String(entry);
      one.style.background = styleOf(paints[entry]);
      one.setAttribute("aria-pressed", String(this.set === "parallel" && this.entryOf(one.dataset.kind) === entry));
    }
    for (const one of this.all("[data-none]")) one.hidden = this.set === "serial";
    this.groups.forEach(reachShown);
    part("pen-plain").hidden = part("pen-parallel").hidden = this.set === "serial";
    part("pen-serial").hidden = this.set !== "serial";
    this.speak();
  }

  // The names of what has one by its value.
  speak() {
    /** @type {Record<string, string>} */
    const heads = this.set === "serial" ? { fore: "alpha", back: "mosaicColour" } : { fore: "fore", back: "back" };
    for (const [kind, key] of Object.entries(heads)) {
      const list = part("pen").querySelector(`[data-none=${kind}]`).closest(".group");
      list.dataset.name = list.querySelector(".head").dataset.word = key;
    }
    speak(part("pen"));
    /** @type {(one: HTMLElement, text: string) => void} */
    const name = (one, text) => {
      one.setAttribute("aria-label", text);
      one.title = text;
    };
    for (const one of this.all("[data-none]")) name(one, `${word(heads[one.dataset.none || ""])}: ${word("standard")}`);
    for (const one of this.all("[data-table]")) name(one, `${word("table")} ${one.dataset.table}`);
    for (const one of this.all(".swatch")) {
      name(one, `${word(heads[one.dataset.kind || ""])}: ${this.needs.entryName(Number(one.dataset.number))}`);
    }
  }
}
