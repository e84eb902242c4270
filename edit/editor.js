// Joins the parts: the sheet, the screen, writing, the tools, the script and what is kept.
import { COLUMNS, PHASES, ROWS, Screen, TALL, lastGrid, paintStill, readFlash, readTrace, run, unicodeOf } from "./shared.js";
import { TABLES, setLanguage, word } from "./words.js";
import { AskFault } from "./faults.js";
import { Asker } from "./ask.js";
import { Sheet } from "./sheet.js";
import { joinTabs, make, part, say } from "./controls.js";
import { Typing } from "./typing.js";
import { Pen } from "./pen.js";
import { Mosaic } from "./mosaic.js";
import { Drawing, POINTS_TALL, POINTS_WIDE, isLongDrawing } from "./drawing.js";
import { PatternEditor } from "./pattern.js";
import { ColourPanel, Whole } from "./whole.js";
import { ScriptPane } from "./script.js";
import { Cuts } from "./cuts.js";
import { Listing } from "./listing.js";
import { Keep, savedOf } from "./keep.js";
import { STATUS } from "./statuses.js";
import { chosenLanguage, isBegun } from "./store.js";

const PHASE_TIME = 1000 / PHASES;
const PAUSE = 250;
// So long a warning of what is typed stays while it goes on, and until the caret is placed elsewhere.
const WARNING_TIME = 6000;
// A script of so many lines is laid out after the pause alone.
const LONG_SCRIPT = 250;
const [LEAST_CELL, STILL_CELL] = [7, 24];
// Pixels of the page for what stands above and below the screen.
const ROOM_BELOW = 262;
const WRITES_ON = "#pen button, #mosaic button, #draw button, #undo, #redo";
/** @type {Record<string, string>} */
const NAMES = {
  "000": "black", F00: "red", "0F0": "green", FF0: "yellow", "00F": "blue", F0F: "magenta", "0FF": "cyan", FFF: "white", "---": "picture",
};

/**
 * What is said of an undo or a redo, where an action has more edits than the program keeps, or there is none.
 * @param {"undo" | "redo"} by
 * @param {{ count: number, most: number }} reach
 */
function endOf(by, { count, most }) {
  if (count === 0) return word(by === "undo" ? "noUndo" : "noRedo");
  if (most === count) return "";
  return most > 0 ? word("undonePartly", { count, most }) : word("undoEnds");
}

class Editor {
  /**
   * The module, and what calls it.
   * @param {WebAssembly.Module} module
   * @param {import("./types.js").Run} program
   */
  constructor(module, program) {
    const asker = new Asker(module, program);
    const sheet = new Sheet(asker);
    this.asker = asker;
    this.sheet = sheet;
    this.screen = new Screen(part("page"), part("outlines"));
    // The cell that is pointed at, or -1.
    this.pointed = -1;
    /** @type {Uint32Array[]} */
    this.phases = [];
    // Clocks: of the flash, of the pause after a change, and of what is done once the screen is painted.
    this.flashing = this.waiting = this.later = 0;
    // Until when typing on leaves a warning.
    this.warned = 0;
    this.storesPage = false;
    this.ratio = 0;
    // The paints that the panels show.
    this.inks = "";
    /** @type {import("./types.js").Tell} */
    const tell = (happening) => this.happened(happening);
    const ready = () => this.ready();
    const named = { paints: () => this.paints(), entryName: (/** @type {number} */ entry) => this.entryName(entry) };
    const dclut = () => this.sheet.live.dclut();
    const pen = new Pen({ sheet, ...named }, tell);
    const typing = new Typing({ sheet, pen, ready: () => this.writes() && ready(), drawingKey: (event) => this.drawingKey(event) }, tell);
    this.pen = pen;
    this.typing = typing;
    this.script = new ScriptPane(sheet, tell);
    this.mosaic = new Mosaic(tell);
    this.drawing = new Drawing({ sheet, asker, pen, ready, caret: () => typing }, tell);
    this.pattern = new PatternEditor({ sheet, asker, ready }, tell);
    this.panel = new Whole({ sheet, at: () => typing.at(), ...named }, tell);
    this.colours = new ColourPanel({ ...named, dclut }, tell);
    this.listing = new Listing({ sheet, asker }, tell);
    this.cuts = new Cuts({ sheet, asker });
    const underWay = () => ({ drawing: this.drawing.underWay(), painted: this.pattern.underWay() });
    this.keep = new Keep({ sheet, asker, cuts: this.cuts, ready, still: () => this.still(), underWay, finish: () => this.finish() }, tell);
    /** @type {import("./types.js").Look[]} */
    this.seen = [];
    this.screen.looks = this.seen;
    typing.join(part("typing"));
    this.lay();
  }

  /**
   * What the parts tell.
   * @param {import("./types.js").Happening} happening
   */
  happened(happening) {
    switch (happening.kind) {
      case "act": return this.act(happening.lines);
      case "mark": return this.typing.act(happening.lines);
      case "write": return this.typing.write(happening.signs);
      case "typed": return this.setScript(happening.text);
      case "figures": return this.draw(happening.text);
      case "changed": return this.changed(false, false, performance.now() < this.warned);
      case "tidy": return this.tidy();
      case "moved":
        this.warned = 0;
        return this.moved();
      case "arrived":
        // What a pointer that rests points at is told again once it moves.
        this.point(-1);
        return this.announce();
      case "chosen":
        this.typing.end();
        return this.moved();
      case "seen":
        this.listing.toEnd();
        return this.paint();
      case "stepped":
        this.script.toEnd();
        this.script.speak();
        return this.paint();
      case "drawn":
        this.listing.toEnd();
        return this.show();
      case "pointed": return this.outline();
      case "cut": return this.cut(happening);
      case "taken": return this.open(happening.kept);
      case "named": return this.show();
      default:
        this.tell(happening.text, happening.isFault);
        if (happening.lasts) this.warned = performance.now() + WARNING_TIME;
        return undefined;
    }
  }

  /**
   * Tells something in passing, or a fault that stays until the next change.
   * @param {string} text
   * @param {boolean} [isFault]
   */
  tell(text, isFault = false) {
    this.warned = 0;
    say("fault", isFault ? text : "");
    say("state", text);
    say("note", isFault ? "" : text);
    part("note").title = part("fault").title = text;
  }

  // Whether lines can be added: not while one of the script is wrong.
  ready() {
    if (this.sheet.fault) this.tell(word("mendFirst", { line: this.sheet.fault.line }), true);
    return this.sheet.fault === null;
  }

  /**
   * Whether it is written at the caret: while something is drawn it isn't, which is said.
   * @returns {boolean}
   */
  writes() {
    if (this.drawing.drawing()) this.tell(word("drawsOnly", { tab: word("tabPen") }));
    return !this.drawing.drawing();
  }

  // Makes what is drawn or painted lines of the script, where that can be.
  finish() {
    this.drawing.keep();
    this.pattern.finish();
  }

  /**
   * Draws the lines of a file, after those of the drawing that is under way, which stays where both are too long.
   * @param {string} text
   */
  draw(text) {
    const all = [this.drawing.underWay(), text].filter((lines) => lines).join("\n");
    if (isLongDrawing(all)) throw new AskFault("plot", STATUS.TOO_LONG);
    part("tab-draw").click();
    if (this.asker.canPlot) this.drawing.goOn(all);
  }

  /** @param {import("./store.js").Kept} kept */
  open({ page, script, cuts, drawing, painted }) {
    this.tell("");
    this.sheet.open(page, script);
    this.cuts.take(cuts);
    this.typing.reset();
    this.isOther();
    this.drawing.goOn(drawing);
    this.pattern.goOn(painted);
  }

  // Another stored page is there.
  isOther() {
    this.screen.looks = this.seen = [];
    this.screen.forget();
    this.script.forget();
    this.listing.forget();
    this.showRefusals();
  }

  /**
   * Cuts the stored page after some items, and makes lines of those behind.
   * @param {{ items: import("./items.js").PageItems, count: number, makesLines: boolean }} cut
   */
  cut({ items, count, makesLines }) {
    if (!this.ready()) return;
    this.typing.leave();
    let made = null;
    try {
      made = makesLines ? this.cuts.makeLines(items, count) : null;
      if (!makesLines) this.cuts.cut(items, count, this.sheet.script());
    } finally {
      // Where a cut fails the page before was opened anew.
      this.isOther();
      this.changed(false, true);
    }
    if (makesLines) this.tell(made ? word("linesMade", made) : word("linesOther"));
    else this.tell(word("cutDone", { bytes: this.sheet.page.length }));
  }

  /**
   * Adds an action of lines.
   * @param {string[]} lines
   */
  act(lines) {
    if (!this.ready()) return;
    this.typing.leave();
    this.sheet.add(lines);
    this.changed();
  }

  /** @param {string} text */
  setScript(text) {
    this.typing.leave();
    this.sheet.setScript(text);
    this.changed(true);
  }

  /**
   * Undo and redo by a key or a button: in the script's field of what was written there, else of what is drawn, or of the tidying that was done
   * last, and then of actions.
   * @param {"undo" | "redo"} by
   * @param {boolean} [inScript]
   */
  undoRedo(by, inScript = false) {
    this.script.settle();
    const isDone = inScript ? this.script.undoRedo(by) : this.drawing.undoRedo(by) || (by === "undo" && this.script.undoTidying());
    if (!isDone) this.undoRedoAction(by);
  }

  /** @param {"undo" | "redo"} by */
  undoRedoAction(by) {
    if (!this.ready()) return;
    this.typing.end();
    const reach = this.sheet.reach(by);
    const begun = by === "undo" && reach.most === reach.count ? this.sheet.beginning() : null;
    const isCut = this.cuts.undoRedo(by);
    const done = isCut || this.sheet.undoRedo(by);
    if (isCut) this.isOther();
    if (done) this.typing.arrive(null);
    if (done && begun && !isCut) this.typing.place(...begun);
    this.changed(false, isCut);
    if (!isCut) this.tell(endOf(by, reach));
  }

  tidy() {
    if (!this.ready()) return;
    this.typing.leave();
    const [before, done] = [this.sheet.script(), this.script.tidy()];
    this.changed();
    this.tell(word(!done ? "tidyKept" : this.sheet.script() === before ? "tidyNothing" : "tidied"));
  }

  /**
   * After each change of the script, and of the stored page.
   * @param {boolean} [typed]
   * @param {boolean} [isCut]
   * @param {boolean} [isWarned]
   */
  changed(typed = false, isCut = false, isWarned = false) {
    this.script.toEnd();
    this.listing.toEnd();
    if (!isWarned) this.tell("");
    this.storesPage = this.storesPage || isCut;
    this.typing.bound();
    this.drawing.again();
    this.show(typed);
  }

  /** @param {boolean} [typed] */
  show(typed = false) {
    if (typed) this.script.show(true);
    this.later = this.later || window.setTimeout(() => this.painted(), 0);
    say("name", this.keep.isUnsaved() ? word("changed", { name: this.keep.shownName() }) : this.keep.shownName());
    part("name").title = this.keep.isUnsaved() ? word("isChanged") : "";
    document.title = `${part("name").textContent} – Tamligub, ${word("editor")}`;
    this.paint();
    this.tellPlace();
  }

  // Once the screen is painted: keeps page and script in the storage, and lays a script out that isn't long.
  painted() {
    clearTimeout(this.later);
    this.later = 0;
    this.keep.store(this.storesPage);
    this.storesPage = false;
    if (this.sheet.lines.length < LONG_SCRIPT) this.script.show();
  }

  // After each motion of the caret.
  moved() {
    this.placeCaret();
    this.tellPlace();
  }

  // Whether the screen is shown as it was before the end.
  isStepping() {
    return this.script.step !== null || this.listing.step !== null;
  }

  // Shows the end again.
  toEnd() {
    if (!this.isStepping()) return;
    this.listing.toEnd();
    this.script.go(Infinity);
  }

  // The grid that is to be seen: of a drawing that is tried, of an item or a line that was stepped to, or of the end.
  grid() {
    if (this.drawing.drawn) return this.drawing.drawn.grid;
    if (this.listing.step !== null) return this.listing.grid(this.listing.step);
    return this.script.step === null ? this.sheet.making.end() : this.sheet.making.after(this.script.step);
  }

  paint() {
    this.stopFlash();
    this.seeGrid(this.grid());
    this.outline();
    this.shade();
    this.placeCaret();
    clearTimeout(this.waiting);
    this.waiting = window.setTimeout(() => this.rest(), PAUSE);
  }

  /**
   * Shows a grid. What flashes is seen: its phases are grids of their own, of steady looks.
   * @param {Uint32Array} grid
   */
  seeGrid(grid) {
    const { list } = this.sheet.known;
    for (let number = this.seen.length; number < list.length; number++) this.seen.push({ ...list[number], flash: "S" });
    this.screen.show(grid);
  }

  outline() {
    this.screen.outline(this.listing.step === null ? this.script.outlined() : this.listing.outlined(), this.pointed);
  }

  // Shades the rows below the format, as it is at the end.
  shade() {
    const { rows } = this.sheet;
    part("beyond").hidden = rows === ROWS || this.isStepping();
    part("beyond").style.top = `${(100 * rows) / ROWS}%`;
  }

  placeCaret() {
    const caret = part("caret");
    const typing = part("typing");
    const ratio = this.ratio || 1;
    const [width, height] = [this.screen.cellWidth, this.screen.cellHeight].map((side) => (side * this.screen.shrink) / ratio);
    const draws = this.drawing.drawing();
    const { x, y } = this.drawing.cursor;
    const cell = [(this.typing.column - 1) * width, (this.typing.row - 1) * height, width, height];
    const box = draws ? [(x * width) / 2, (y * height) / 3, width / 2, height / 3] : cell;
    ["left", "top", "width", "height"].forEach((side, at) => {
      caret.style[side] = `${box[at]}px`;
      if (at < 2 && !draws) typing.style[side] = `${box[at]}px`;
    });
    caret.hidden = this.isStepping();
  }

  // The place of the caret, or the look of the cell that is pointed at.
  tellPlace() {
    const { row, column } = this.typing;
    this.listing.mark(this.pointed, this.typing.cell());
    if (this.pointed < 0) return this.sayPlace(word("whereTyping", { row, column }));
    const look = this.lookOf(this.pointed);
    const place = word("where", { row: Math.floor(this.pointed / COLUMNS) + 1, column: (this.pointed % COLUMNS) + 1 });
    const lines = this.script.step === null ? Infinity : this.script.step;
    const line = this.listing.step === null ? this.sheet.making.lineOf(this.pointed, lines) : 0;
    const { rows } = this.sheet;
    const what = this.pointed < rows * COLUMNS ? look.text : word("beyond", { rows });
    return this.sayPlace(`${place}: ${what}${line ? ` (${word("madeBy", { line })})` : ""}`);
  }

  /** @param {string} text */
  sayPlace(text) {
    say("where", text);
    part("where").title = text;
  }

  /** @param {number} cell */
  lookOf(cell) {
    return this.sheet.known.list[this.grid()[cell]];
  }

  // Tells a reader of the screen where the caret is, and what stands there.
  announce() {
    const look = this.lookOf(this.typing.cell());
    say("state", `${part("where").textContent}: ${look.kind === "space" ? word("space") : unicodeOf(look)}`);
  }

  /** @param {number} cell */
  point(cell) {
    if (cell === this.pointed) return;
    this.pointed = cell;
    this.tellPlace();
    this.outline();
  }

  // After a pause: what `edit` puts, whether it shows the same, and the phases of the flash.
  rest() {
    clearTimeout(this.waiting);
    this.waiting = 0;
    if (this.sheet.lines.length >= LONG_SCRIPT) this.script.show();
    const page = this.sheet.edited();
    const { items, refused } = this.asker.check(page);
    const same = this.showsSame(page);
    const said = word("report", { bytes: page.length, items, refused });
    say("report-page", `${said} ${word(this.sheet.fault ? "reportBad" : same ? "reportSame" : "reportOther")}`);
    part("report-page").dataset.same = String(same && !this.sheet.fault);
    if (String(this.paints()) !== this.inks) this.speakPanels();
    else this.pattern.mark();
    this.panel.show();
    this.colours.showDclut();
    this.flash();
  }

  /**
   * Whether bytes show what the screen shows at the end of the script, cell by cell.
   * @param {Uint8Array} page
   */
  showsSame(page) {
    const shown = this.sheet.making.end();
    const grid = lastGrid(readTrace(this.asker.changes(page), this.sheet.known));
    return grid.every((number, cell) => number === shown[cell]);
  }

  // The paints of the 32 entries, as the program says them.
  paints() {
    return this.sheet.live.paints();
  }

  /**
   * The name of an entry by the paint that it has.
   * @param {number} entry
   */
  entryName(entry) {
    const paint = this.paints()[entry];
    return word("entryNamed", { name: NAMES[paint] ? word(NAMES[paint]) : paint, number: entry });
  }

  // A picture of the end, as `btx png` makes it.
  still() {
    const canvas = document.createElement("canvas");
    paintStill(canvas, { looks: this.sheet.known.list, grid: this.sheet.making.end() }, STILL_CELL, 1, part("reveal").checked);
    return canvas;
  }

  // The phases of the flash are the lines of `flash` for what `edit` puts.
  flash() {
    this.stopFlash();
    const flashes = this.grid().some((number) => this.sheet.known.list[number].flash !== "S");
    if (!part("flash").checked || !flashes || this.isStepping() || this.drawing.drawn) return;
    this.phases = readFlash(this.asker.flash(this.sheet.edited()), this.sheet.known);
    let phase = 0;
    const turn = () => {
      this.seeGrid(this.phases[phase]);
      phase = (phase + 1) % PHASES;
    };
    turn();
    this.flashing = window.setInterval(turn, PHASE_TIME);
  }

  stopFlash() {
    clearInterval(this.flashing);
    this.flashing = 0;
  }

  showRefusals() {
    const { check } = this.sheet;
    say("refusals-count", word(check.refused ? "refusals" : "refusalsNone", check));
    part("refusals-part").open = check.refused > 0;
    part("refusals-part").hidden = !check.refused;
    part("refusals").replaceChildren(...check.refusals.slice(0, 1000).map((refusal) => make("li", {}, word("refusal", refusal))));
  }

  speakPanels() {
    this.inks = String(this.paints());
    this.pen.show();
    this.mosaic.speak();
    this.drawing.speak();
    this.pattern.speak();
    this.panel.speak();
    this.colours.speak();
  }

  /** @param {string} language */
  speak(language) {
    setLanguage(language);
    this.tell("");
    part("script").placeholder = word("scriptHint");
    this.speakPanels();
    this.showRefusals();
    this.listing.speak();
    this.show();
  }

  /**
   * Keys on the screen while something is drawn.
   * @param {KeyboardEvent} event
   * @returns {boolean}
   */
  drawingKey(event) {
    return this.drawing.drawing() && this.drawing.key(event);
  }

  // Lays the screen out for the room that there is, in whole pixels of the display.
  lay() {
    const ratio = window.devicePixelRatio || 1;
    const wide = part("stage").clientWidth - 2;
    const high = (Math.max(window.innerHeight - ROOM_BELOW, window.innerHeight / 2) / ROWS / TALL) * COLUMNS;
    const cell = Math.max(LEAST_CELL, Math.floor((Math.min(wide, high) * ratio) / COLUMNS));
    if (cell === this.screen.asked && ratio === this.ratio) return;
    this.ratio = ratio;
    this.layAnew(cell);
  }

  /** @param {number} cell */
  layAnew(cell) {
    this.screen.lay(cell, this.ratio);
    this.paint();
  }

  /**
   * Whether letters are those of the browser's font.
   * @param {boolean} font
   */
  letters(font) {
    this.screen.font = font;
    this.layAnew(this.screen.asked);
  }
}

/**
 * What the mouse, a pen or a finger does on the screen.
 * @param {Editor} editor
 */
function joinScreen(editor) {
  const { screen, drawing, typing } = editor;
  const box = part("screen");
  /** @type {(event: PointerEvent) => { x: number, y: number }} */
  const pointAt = (event) => {
    const bounds = part("page").getBoundingClientRect();
    /** @type {(value: number, size: number, count: number) => number} */
    const place = (value, size, count) => Math.min(count - 1, Math.max(0, Math.floor((value / size) * count)));
    return {
      x: place(event.clientX - bounds.left, bounds.width, POINTS_WIDE),
      y: Math.min(place(event.clientY - bounds.top, bounds.height, POINTS_TALL), drawing.tall() - 1),
    };
  };
  box.addEventListener("pointerdown", (/** @type {PointerEvent} */ event) => {
    event.preventDefault();
    part("typing").focus({ preventScroll: true });
    editor.toEnd();
    if (drawing.drawing()) {
      box.setPointerCapture(event.pointerId);
      drawing.down(pointAt(event));
      return;
    }
    const cell = screen.cellAt(event.clientX, event.clientY);
    if (cell < 0) return;
    const row = Math.floor(cell / COLUMNS) + 1;
    const { rows } = editor.sheet;
    if (row > rows) return editor.tell(word("placeBeyond", { rows }));
    typing.place(row, (cell % COLUMNS) + 1);
    editor.happened({ kind: "moved" });
  });
  box.addEventListener("pointermove", (/** @type {PointerEvent} */ event) => {
    if (drawing.drawing()) drawing.moveTo(pointAt(event));
    editor.point(screen.cellAt(event.clientX, event.clientY));
  });
  for (const end of ["pointerup", "pointercancel"]) box.addEventListener(end, () => drawing.up());
  box.addEventListener("pointerleave", () => editor.point(-1));
}

/**
 * Keys that go everywhere.
 * @param {Editor} editor
 * @param {KeyboardEvent} event
 */
function onKey(editor, event) {
  const target = /** @type {HTMLElement} */ (event.target);
  const inScript = target.id === "script";
  const letter = event.key.toLowerCase();
  if (part("unsaved").open || part("help-part").open) return;
  if (event.key === "Escape") {
    if (target.id !== "typing") part("typing").focus();
    return;
  }
  if (!(event.ctrlKey || event.metaKey) || event.altKey) return;
  editor.script.settle();
  if (letter === "s") editor.keep.keepPage();
  else if (letter === "z" && !event.shiftKey) editor.undoRedo("undo", inScript);
  else if (letter === "y" || letter === "z") editor.undoRedo("redo", inScript);
  else return;
  event.preventDefault();
}

/**
 * The browser's own undo, as its menu has it, would go over all fields together.
 * @param {Editor} editor
 * @param {InputEvent} event
 */
function onInput(editor, event) {
  const by = event.inputType === "historyUndo" ? "undo" : event.inputType === "historyRedo" ? "redo" : null;
  if (!by) return;
  event.preventDefault();
  editor.undoRedo(by, event.target === part("script"));
}

/**
 * The buttons undo and redo what the keys would: before the click the focus stays where it is, and in the script after it too.
 * @param {Editor} editor
 * @param {"undo" | "redo"} by
 */
function joinUndo(editor, by) {
  const one = part(by);
  one.addEventListener("mousedown", (/** @type {Event} */ event) => event.preventDefault());
  one.addEventListener("click", () => editor.undoRedo(by, document.activeElement === part("script")));
}

/** @param {Editor} editor */
function joinControls(editor) {
  /** @type {(id: string, kind: string, act: () => void) => void} */
  const on = (id, kind, act) => part(id).addEventListener(kind, act);
  joinUndo(editor, "undo");
  joinUndo(editor, "redo");
  on("help", "click", () => part("help-part").showModal());
  on("help-close", "click", () => part("help-part").close());
  on("language", "change", () => editor.speak(chosenLanguage(part("language").value) || part("language").value));
  on("flash", "change", () => {
    editor.paint();
    editor.rest();
  });
  on("font", "change", () => editor.letters(part("font").checked));
  on("reveal", "change", () => editor.screen.turn(0, part("reveal").checked));
  document.addEventListener("keydown", (event) => onKey(editor, event));
  document.addEventListener("beforeinput", (event) => onInput(editor, event));
  // After a click of the mouse on a tool the keys go on writing, and in the script after one that undoes there.
  document.addEventListener("click", (event) => {
    const writesOn = event.target instanceof Element && event.target.closest(WRITES_ON);
    if (event.detail > 0 && writesOn && document.activeElement !== part("script")) part("typing").focus({ preventScroll: true });
  });
  // Where the program ends without an answer, as for a script that is too long, its status is said.
  /** @type {(event: Event, fault: unknown) => void} */
  const ended = (event, fault) => {
    if (!(fault instanceof AskFault)) return;
    // Once a page is open its script alone can get too long.
    editor.tell(editor.keep.endOf(fault, fault.status === STATUS.TOO_LONG ? word("script") : editor.keep.shownName()), true);
    event.preventDefault();
  };
  window.addEventListener("error", (event) => ended(event, event.error));
  window.addEventListener("unhandledrejection", (event) => ended(event, event.reason));
  joinTabs(part("tabs"), (panel) => {
    if (panel === "pattern") {
      editor.pattern.mark();
      editor.pattern.show();
    }
    if (panel === "draw") editor.typing.end();
    editor.drawing.begin(panel === "draw");
  });
}

async function begin() {
  const letters = part("module").textContent;
  const module = await WebAssembly.compile(Uint8Array.from(atob(letters), (sign) => sign.charCodeAt(0)));
  const last = chosenLanguage();
  const language = last && TABLES[last] ? last : (navigator.language || "de").startsWith("de") ? "de" : "en";
  setLanguage(language);
  const editor = new Editor(module, run);
  part("language").value = language;
  part("flash").checked = !window.matchMedia("(prefers-reduced-motion: reduce)").matches;
  joinScreen(editor);
  joinControls(editor);
  const kept = await editor.keep.stored();
  editor.keep.take(kept || savedOf("", new Uint8Array(), ""));
  editor.speak(language);
  window.addEventListener("resize", () => editor.lay());
  window.addEventListener("pagehide", () => {
    if (editor.later) editor.painted();
  });
  if (kept && isBegun(kept)) part(kept.drawing ? "tab-draw" : "tab-pattern").click();
  part("typing").focus();
  const { stores } = editor.keep;
  const said = [kept ? word("restored", { name: editor.keep.shownName() }) : "", stores ? "" : word("notKept")].filter((text) => text);
  if (said.length) editor.happened({ kind: "said", text: said.join(" "), lasts: !stores });
  // For tests, which look into it.
  Object.assign(/** @type {any} */ (window).Tamligub, { editor });
}

begin();
