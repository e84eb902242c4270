// Watches a line over a WebSocket: what comes is fed to a decoder of the module that stands in this file, and the places that it tells are
// painted. When the line ends, what came is a page.
import { beside } from "./beside.js";
import { compiled } from "./decoder.js";
import { PageFault, decoded } from "./decoding.js";
import { grouped, word } from "./language.js";
import { bytesOfKeys, lookText } from "./notices.js";
import { part, say, tell } from "./panels.js";
import { CELLS, COLUMNS, Looks, PHASES } from "./text.js";
import { begun, viewer } from "./viewer.js";

/** @typedef {import("./types.js").Notice} Notice */
/** @typedef {import("./viewer.js").Viewer} Viewer */

const PHASE_TIME = 1000 / PHASES;
const PLACE = 1;
// What is said of a page, and isn't known of a line.
const UNKNOWN = ["count-moments", "count-last", "count-all", "count-whole", "cell-line", "cell-bytes", "refusals-count"];
/**
 * The line that is asked for and isn't open yet, and the one that was opened last.
 * @type {Line | null}
 */
let asked = null;
/** @type {Line | null} */
let last = null;

export class Line {
  /**
   * @param {Viewer} shower
   * @param {WebAssembly.Module} module
   * @param {string} address
   */
  constructor(shower, module, address) {
    this.viewer = shower;
    this.module = module;
    this.name = address;
    this.decoder = new (beside().Decoder)(module);
    this.known = new Looks();
    this.looks = this.known.list;
    // The looks as the phase of now has them, and of each place that flashes the one with its sign as it is seen.
    this.grid = new Uint32Array(CELLS);
    /** @type {Map<number, number>} */
    this.flashing = new Map();
    /** @type {Uint8Array[]} */
    this.pieces = [];
    /** @type {number[][]} */
    this.times = [];
    this.count = 0;
    /** @type {any} */
    this.phases = 0;
    this.begun = 0;
    this.socket = new WebSocket(address);
    this.socket.binaryType = "arraybuffer";
    this.socket.onopen = () => this.opened();
    this.socket.onmessage = ({ data }) => this.came(typeof data === "string" ? new TextEncoder().encode(data) : new Uint8Array(data));
    this.socket.onclose = () => this.ended();
  }

  opened() {
    this.begun = performance.now();
    asked = null;
    last = this;
    // For tests, which look into it.
    Object.assign(beside(), { line: this });
    this.viewer.watch(this);
    this.show();
    this.viewer.text();
    offer(true);
    part("line-save").disabled = false;
    say("state", word("lineOpen"));
  }

  /** @param {Uint8Array} bytes */
  came(bytes) {
    this.pieces.push(bytes);
    this.times.push([Math.floor(performance.now() - this.begun), bytes.length]);
    this.count += bytes.length;
    say("count-bytes", grouped(this.count));
    const notices = this.decoder.feed(bytes);
    this.take(notices);
    for (const { kind, row, column, flash } of notices) {
      const cell = cellAt(row, column);
      if (kind === PLACE && flash) this.flashing.set(cell, this.grid[cell]);
      else if (kind === PLACE) this.flashing.delete(cell);
    }
    this.flash();
    this.viewer.text();
  }

  /**
   * Takes the places that are told.
   * @param {Notice[]} notices
   */
  take(notices) {
    for (const it of notices) {
      if (it.kind === PLACE) this.grid[cellAt(it.row, it.column)] = this.known.number(lookText(it));
    }
  }

  // What is on the screen, with each sign that flashes as it is seen.
  seen() {
    const grid = this.grid.slice();
    this.flashing.forEach((number, cell) => { grid[cell] = number; });
    return { looks: this.looks, grid };
  }

  // Paints the places that look otherwise: in the phase of now, or as they are seen where no flash is wanted.
  show() {
    this.viewer.screen.show(part("flash").checked ? this.grid : this.seen().grid);
  }

  // Says its name and how many bytes have come.
  tell() {
    UNKNOWN.forEach((id) => say(id, ""));
    part("refusals").replaceChildren();
    say("name", this.name);
    say("count-bytes", grouped(this.count));
  }

  // Has phases come while something flashes, and that is wanted.
  flash() {
    const wanted = this.flashing.size > 0 && part("flash").checked;
    if (wanted && !this.phases) this.phases = setInterval(() => this.turn(), PHASE_TIME);
    if (!wanted) this.rest();
    this.show();
  }

  turn() {
    this.take(this.decoder.flashTurn());
    this.show();
  }

  rest() {
    clearInterval(this.phases);
    this.phases = 0;
  }

  /** @param {string} text */
  send(text) {
    const bytes = bytesOfKeys(text);
    if (bytes.length) this.socket.send(bytes);
  }

  // Ends the line from here.
  leave() {
    this.socket.onclose = null;
    this.socket.close();
    this.close();
  }

  close() {
    this.rest();
    if (asked === this) asked = null;
    // One that didn't open isn't watched.
    if (this.viewer.line === this) {
      this.viewer.unwatch();
      offer(false);
    }
    this.decoder.close();
  }

  // The line is at its end: what came becomes a page.
  async ended() {
    const came = this.viewer.line === this;
    this.close();
    if (!came) tell("fault", () => word("of", { name: this.name, why: word("lineUnopened") }));
    else await keep(this);
  }
}

/**
 * The number of a cell.
 * @param {number} row
 * @param {number} column
 */
function cellAt(row, column) {
  return (row - 1) * COLUMNS + column - 1;
}

/**
 * Whether a line can be left, and keys sent; else another one can be watched. The focus isn't left on a button that is off.
 * @param {boolean} isOpen
 */
function offer(isOpen) {
  part("line-leave").disabled = part("line-keys").disabled = !isOpen;
  if (isOpen && document.activeElement === part("line-watch")) part("line-keys").focus();
  part("line-watch").disabled = isOpen;
}

/**
 * Shows what came over a line as a page, with its own time; one that is too long is told. No other line begins meanwhile.
 * @param {Line} line
 */
async function keep(line) {
  part("line-watch").disabled = true;
  const bytes = new Uint8Array(await new Blob(line.pieces).arrayBuffer());
  try {
    line.viewer.take([{ ...await decoded(line.module, { name: line.name, bytes }), times: line.times }]);
    say("state", word("lineEnded"));
  } catch (fault) {
    if (!(fault instanceof PageFault)) throw fault;
    tell("fault", fault.told);
  } finally {
    part("line-watch").disabled = false;
  }
}

// Saves what has come over the last line as a stored page.
function save() {
  if (!last) return;
  const link = document.createElement("a");
  link.href = URL.createObjectURL(new Blob(last.pieces));
  link.download = "line.btx";
  link.click();
  setTimeout(() => URL.revokeObjectURL(link.href), 1000);
  say("state", word("lineSaved"));
}

/**
 * Asks for a line, in place of one that isn't open yet.
 * @param {Event} event
 */
async function open(event) {
  event.preventDefault();
  if (part("line-watch").disabled) return;
  tell("fault", () => "");
  const module = await compiled;
  const address = part("line-address").value.trim();
  if (asked) asked.leave();
  try {
    asked = new Line(viewer, module, address);
  } catch (fault) {
    const isBarred = fault instanceof DOMException && fault.name === "SecurityError";
    tell("fault", () => word("of", { name: address, why: word(isBarred ? "lineBarred" : "lineNowhere") }));
  }
}

function joinLine() {
  part("line-part").hidden = false;
  if (window.location.protocol === "http:") {
    part("line-address").value = `ws://${window.location.host}/`;
    part("line-part").open = true;
  }
  part("line").addEventListener("submit", open);
  part("line-save").addEventListener("click", save);
  part("line-leave").addEventListener("click", () => {
    const { line } = viewer;
    if (!line) return;
    line.leave();
    keep(line);
  });
  part("line-form").addEventListener("submit", (/** @type {Event} */ event) => {
    event.preventDefault();
    if (viewer.line) viewer.line.send(part("line-keys").value);
    part("line-keys").value = "";
  });
}
begun.then(joinLine);
