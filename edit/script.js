// The script as text beside the screen: edited in place, with the line that is wrong, the one that is pointed at, and the one up to
// which the screen is shown.
import { word } from "./words.js";
import { whyBad } from "./grammar.js";
import { isEdit } from "./sheet.js";
import { AskFault } from "./faults.js";
import { Steps, kindOf } from "./steps.js";
import { part, say } from "./controls.js";

/** @typedef {import("./sheet.js").Sheet} Sheet */
/** @typedef {import("./types.js").Tell} Tell */

const PAUSE = 200;
// The kind of the step of a script that was tidied.
const TIDYING = "tidying";

/**
 * The numbers of the lines, each with how many cells it changed.
 * @param {Pick<Sheet, "lines" | "good" | "making">} sheet
 * @returns {string}
 */
export function gutterOf({ lines, good, making }) {
  const rows = lines.map((line, index) => {
    const count = isEdit(line) && index < good.length ? making.cellsOf(index + 1).length : 0;
    return `${index + 1}${String(count || "").padStart(4)}`;
  });
  return rows.join("\n");
}

/**
 * The script of a text: its last line is ended.
 * @param {string} text
 */
const scriptOf = (text) => (/[^\n]$/.test(text) ? `${text}\n` : text);

/**
 * The line to which one edit forward or back leads: empty lines and comments are passed.
 * @param {number} from
 * @param {number} by
 * @param {string[]} good
 * @returns {number}
 */
export function stepFrom(from, by, good) {
  let line = from;
  do line += by;
  while (line > 0 && line < good.length && !isEdit(good[line - 1]));
  return line;
}

export class ScriptPane {
  /**
   * The sheet whose script it is.
   * @param {Sheet} sheet
   * @param {Tell} tell
   */
  constructor(sheet, tell) {
    this.sheet = sheet;
    this.tell = tell;
    /** @type {HTMLTextAreaElement} */
    this.field = part("script");
    /**
     * Up to which line the screen is shown; null is the end.
     * @type {number | null}
     */
    this.step = null;
    /** @type {number | null} */
    this.pointed = null;
    this.lineHeight = 0;
    // What was written in the field, and how the last of it was; a clock, where that isn't told yet.
    this.steps = new Steps();
    this.written = "";
    this.waiting = 0;
    this.join();
  }

  // Shows the screen to the end of the script.
  toEnd() {
    this.step = null;
  }

  // The same, of another script.
  forget() {
    this.step = this.pointed = null;
    clearTimeout(this.waiting);
    this.waiting = 0;
  }

  // Tells what was written in the field.
  told() {
    clearTimeout(this.waiting);
    this.waiting = 0;
    this.follow();
    // What is inserted at once may come as an event for each of its lines, all of them after the last line stands there.
    if (this.field.value === this.steps.text) return;
    try {
      this.tell({ kind: "typed", text: this.field.value });
    } catch (fault) {
      // What is too long isn't taken.
      if (fault instanceof AskFault) this.field.value = this.steps.text;
      throw fault;
    }
    this.steps.note(this.field.value, this.written);
  }

  // Forgets what was written in the field before, where another script stands there.
  follow() {
    if (scriptOf(this.steps.text) !== this.sheet.script()) this.steps.follow(this.sheet.script());
  }

  /**
   * Takes back what was written last in the field, or writes it again, where nothing else was done since. Answers whether there was any.
   * @param {"undo" | "redo"} by
   */
  undoRedo(by) {
    this.follow();
    const place = this.steps.undoRedo(by);
    if (place === null) return false;
    this.field.value = this.steps.text;
    this.field.setSelectionRange(place, place);
    this.tell({ kind: "typed", text: this.steps.text });
    return true;
  }

  // Tidies the script, as a step that can be taken back. Answers whether the page is the same by it; else nothing is done.
  tidy() {
    this.follow();
    const [before, done] = [this.sheet.script(), this.sheet.tidy()];
    if (this.sheet.script() !== before) this.steps.note(this.sheet.script(), TIDYING);
    return done;
  }

  // Takes the tidying back, where nothing was done since. Answers whether there was any.
  undoTidying() {
    this.follow();
    return this.steps.kind() === TIDYING && this.undoRedo("undo");
  }

  // The same without a pause, where it waits.
  settle() {
    if (this.waiting) this.told();
  }

  lines() {
    return this.sheet.lines;
  }

  good() {
    return this.sheet.good.length;
  }

  /**
   * Shows the script as it is now. Where a person is writing in it the text stays as it is.
   * @param {boolean} [typed]
   */
  show(typed = false) {
    if (!typed && !this.waiting && !this.has(this.sheet.script())) {
      this.field.value = this.sheet.script();
      this.field.scrollTop = this.field.scrollHeight;
    }
    say("gutter", gutterOf(this.sheet));
    this.speak();
  }

  /**
   * Whether the field has a script: while it has the focus, also where the last line isn't ended yet.
   * @param {string} script
   */
  has(script) {
    const { value } = this.field;
    return (document.activeElement === this.field ? scriptOf(value) : value) === script;
  }

  height() {
    if (!this.lineHeight) this.lineHeight = parseFloat(getComputedStyle(this.field).lineHeight);
    return this.lineHeight;
  }

  /**
   * Puts a band behind a line, or takes it away.
   * @param {string} id
   * @param {number | null} line
   */
  band(id, line) {
    const band = part(id);
    band.hidden = line === null;
    if (line !== null) band.style.top = `${(line - 1) * this.height() - this.field.scrollTop}px`;
  }

  // Tells the fault, the line that is pointed at, and up to where is shown.
  speak() {
    const { fault, making } = this.sheet;
    say("script-fault", fault ? word("badLine", { ...fault, why: this.why(fault) }) : "");
    this.field.setAttribute("aria-invalid", String(fault !== null));
    const shown = this.step === null ? this.good() : this.step;
    [part("step").max, part("step").value] = [this.good(), shown];
    part("step").setAttribute("aria-valuetext", word("shownTo", { line: shown, lines: this.good() }));
    const line = this.pointed || this.step;
    const count = line && line <= this.good() ? making.cellsOf(line).length : 0;
    const said = !line ? "" : word(count === 0 ? "lineNothing" : count === 1 ? "lineChangedOne" : "lineChanged", { line, cells: count });
    say("script-line", this.step === null ? said : `${word("shownTo", { line: this.step, lines: this.good() })} ${said}`);
    this.bands();
  }

  /**
   * Why a line is wrong.
   * @param {{ line: number, name: string }} fault
   */
  why(fault) {
    const { asker, lines } = this.sheet;
    return whyBad(fault, lines[fault.line - 1], "script", (page) => asker.check(page));
  }

  bands() {
    this.band("band-step", this.step);
    this.band("band-line", this.pointed);
    this.band("band-fault", this.sheet.fault ? this.sheet.fault.line : null);
    part("gutter").scrollTop = this.field.scrollTop;
  }

  /**
   * The cells to outline: those of the line that is pointed at, else of the one that was reached by stepping.
   * @returns {number[]}
   */
  outlined() {
    const line = this.pointed || this.step;
    return line && line <= this.good() ? this.sheet.making.cellsOf(line) : [];
  }

  /** @param {number | null} line */
  point(line) {
    const inside = line !== null && line >= 1 && line <= this.good() ? line : null;
    if (inside === this.pointed) return;
    this.pointed = inside;
    this.speak();
    this.tell({ kind: "pointed" });
  }

  /**
   * Shows the screen up to a line; past the last edit it is the end again.
   * @param {number} line
   */
  go(line) {
    const within = Math.max(0, Math.min(this.good(), line));
    this.step = within === this.good() ? null : within;
    this.reveal(within);
    this.speak();
    this.tell({ kind: "seen" });
  }

  /**
   * One edit forward or back: empty lines and comments are passed.
   * @param {number} by
   */
  turn(by) {
    this.go(stepFrom(this.step === null ? this.good() : this.step, by, this.sheet.good));
  }

  /** @param {number} line */
  reveal(line) {
    const top = (line - 1) * this.height();
    const { scrollTop, clientHeight } = this.field;
    if (top < scrollTop || top > scrollTop + clientHeight - 2 * this.height()) this.field.scrollTop = Math.max(0, top - clientHeight / 2);
  }

  // The line of the cursor in the text.
  lineOfCursor() {
    return this.field.value.slice(0, this.field.selectionStart).split("\n").length;
  }

  join() {
    const { field, sheet } = this;
    /** @type {(id: string, kind: string, act: () => void) => void} */
    const on = (id, kind, act) => part(id).addEventListener(kind, act);
    // Where making all anew may take long the text is seen first, and made after a pause.
    field.addEventListener("input", (event) => {
      this.written = kindOf(event);
      clearTimeout(this.waiting);
      if (sheet.isLong()) this.waiting = window.setTimeout(() => this.told(), PAUSE);
      else this.told();
    });
    field.addEventListener("scroll", () => this.bands());
    field.addEventListener("mousemove", (event) => {
      const bounds = field.getBoundingClientRect();
      this.point(Math.floor((event.clientY - bounds.top + field.scrollTop) / this.height()) + 1);
    });
    field.addEventListener("mouseleave", () => this.point(document.activeElement === field ? this.lineOfCursor() : null));
    document.addEventListener("selectionchange", () => {
      if (document.activeElement === field) this.point(this.lineOfCursor());
    });
    field.addEventListener("blur", () => {
      this.settle();
      this.point(null);
    });
    on("first", "click", () => this.go(0));
    on("back", "click", () => this.turn(-1));
    on("forward", "click", () => this.turn(1));
    on("last", "click", () => this.go(this.good()));
    on("step", "input", () => this.go(Number(part("step").value)));
    on("tidy", "click", () => this.tell({ kind: "tidy" }));
  }
}
