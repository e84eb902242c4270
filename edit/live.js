// The page under way: a decoder that was fed the stored page to its end, and on which the lines of the script are made one by one. What a line
// changes, where it leads and how much can be undone is told by the decoder.
import { CELLS, COLUMNS, Decoder, colourText, flashingText } from "./shared.js";
import { AskFault, BadLine } from "./faults.js";
import { STATUS } from "./statuses.js";

/** @typedef {import("./types.js").Looks} Known */
/** @typedef {import("./types.js").Step} Step */

// Why a line is outside the grammar, by numbers from 1 on.
export const REASONS = ["UnknownWord", "WrongCount", "BadNumber", "BadText", "BadHex", "BadBytes"];

// The primary set's number among the sets of a state.
const PRIMARY = 0;

/** @param {{ row: number, column: number }} place */
const cellOf = ({ row, column }) => (row - 1) * COLUMNS + column - 1;

/** @param {WebAssembly.Instance} instance */
function opened(instance) {
  try {
    return new Decoder(instance);
  } catch (fault) {
    throw new AskFault("edit", STATUS.NO_MEMORY);
  }
}

/**
 * How bytes of a page are taken at some places, each behind the one before.
 * @param {WebAssembly.Instance} instance
 * @param {Uint8Array} page
 * @param {number[]} places
 * @returns {import("./items.js").Taking[]}
 */
export function takingsOf(instance, page, places) {
  const decoder = opened(instance);
  const found = places.map((place, at) => {
    decoder.skim(page.subarray(at ? places[at - 1] : 0, place));
    const { g, left, single, accent } = decoder.state();
    const waits = single > 0 || accent > 0;
    return { isText: left === 0 && g[0] === PRIMARY && !waits, waits };
  });
  decoder.close();
  return found;
}

export class Live {
  /**
   * An instance of the module, which may have many of these; a stored page; and the looks that are known, among which those here are numbered.
   * @param {WebAssembly.Instance} instance
   * @param {Uint8Array} page
   * @param {Known} known
   */
  constructor(instance, page, known) {
    this.known = known;
    /**
     * The colours, once they were asked for since the last line.
     * @type {{ paints: string[], dclut: number[] } | null}
     */
    this.colours = null;
    this.decoder = opened(instance);
    this.decoder.skim(page);
    this.decoder.finish();
  }

  /**
   * The grid of the looks of all cells.
   * @returns {Uint32Array}
   */
  grid() {
    return Uint32Array.from({ length: CELLS }, (_, cell) => {
      return this.known.number(flashingText(this.decoder.look(Math.floor(cell / COLUMNS) + 1, (cell % COLUMNS) + 1)));
    });
  }

  /**
   * Makes a line of the program's grammar. Answers which cells look otherwise, and how; null where there was nothing to make.
   * @param {string} line
   * @returns {Step | null}
   */
  line(line) {
    this.colours = null;
    const notices = this.told(line);
    return notices && { cells: notices.map(cellOf), numbers: notices.map((notice) => this.known.number(flashingText(notice))) };
  }

  /**
   * What the decoder tells of a line.
   * @param {string} line
   */
  told(line) {
    try {
      return this.decoder.line(line);
    } catch (fault) {
      const { reason } = /** @type {{ reason?: number }} */ (fault);
      throw reason ? new BadLine(`script line 1: ${reason} ${REASONS[reason - 1]}\n`) : new AskFault("edit", STATUS.NO_MEMORY);
    }
  }

  /**
   * Makes lines that were made before, of which nothing is to be told.
   * @param {string[]} lines
   */
  makeAgain(lines) {
    this.colours = null;
    for (const line of lines) this.decoder.make(line);
  }

  // How many edits can be undone.
  kept() {
    return this.decoder.kept();
  }

  // How many that were undone can be redone.
  undone() {
    return this.decoder.undone();
  }

  // Where the next sign would be written, the set and the table in force, and format, area and modes; an area of rows 0 is none.
  state() {
    const state = this.decoder.state();
    const { rows, wrap, first, last, implicit, revision, protect } = state;
    const [set, table] = [state.c1 ? "parallel" : "serial", `table ${state.table}`];
    return { at: cellOf(state), set, table, rows, wrap, first, last, implicit, revision, protect };
  }

  inForce() {
    if (!this.colours) {
      const { entries, dclut } = this.decoder.colours();
      this.colours = { paints: entries.map(colourText), dclut };
    }
    return this.colours;
  }

  /**
   * The paints of the 32 entries.
   * @returns {string[]}
   */
  paints() {
    return this.inForce().paints;
  }

  /**
   * The entries of the four inks of patterns of two planes.
   * @returns {number[]}
   */
  dclut() {
    return this.inForce().dclut;
  }

  close() {
    this.decoder.close();
  }
}
