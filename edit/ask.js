// Asks the program, which stands as a module in this file. All that the editor shows comes from here and from the page under way.
import { Looks, readCheck, readTrace } from "./shared.js";
import { AskFault, BadLine } from "./faults.js";
import { PageItems, readItems } from "./items.js";
import { Live, takingsOf } from "./live.js";
import { STATUS } from "./statuses.js";

/** @typedef {import("./types.js").Check} Check */
/** @typedef {import("./types.js").Look} Look */
/** @typedef {import("./types.js").Run} Run */
/** @typedef {import("./types.js").Things} Things */
/** @typedef {import("./types.js").Trace} Trace */
/** @typedef {import("./types.js").Looks} Known */

const WHOLE = [STATUS.DONE, STATUS.REFUSALS];
// Each phase of the flash once, and back to the first.
const TURNS = 6;
/** @param {string} text */
export const bytesOf = (text) => new TextEncoder().encode(text);
/** @param {Uint8Array} bytes */
export const textOf = (bytes) => new TextDecoder("utf-8").decode(bytes);

export class Asker {
  /**
   * The module, and what calls it.
   * @param {WebAssembly.Module} module
   * @param {Run} run
   */
  constructor(module, run) {
    this.module = module;
    this.run = run;
    /**
     * In which all pages under way stand.
     * @type {WebAssembly.Instance | null}
     */
    this.instance = null;
    // Whether the module knows the word.
    this.canPlot = this.call("plot", { page: new Uint8Array(), script: new Uint8Array() }).status !== STATUS.USAGE;
  }

  /**
   * @param {string} word
   * @param {Things} things
   */
  call(word, things) {
    try {
      return this.run(this.module, word, things);
    } catch (fault) {
      if (fault instanceof RangeError) throw new AskFault(word, STATUS.NO_MEMORY);
      throw fault;
    }
  }

  /**
   * @param {string} word
   * @param {Things} things
   */
  put(word, things) {
    const { status, text } = this.call(word, things);
    if (status === STATUS.BAD_SCRIPT) throw new BadLine(textOf(text));
    if (!WHOLE.includes(status)) throw new AskFault(word, status);
    return text;
  }

  /**
   * A stored page under way, its looks numbered among those that are known.
   * @param {Uint8Array} page
   * @param {Known} known
   */
  live(page, known) {
    return new Live(this.instanceOfAll(), page, known);
  }

  instanceOfAll() {
    this.instance = this.instance || new WebAssembly.Instance(this.module);
    return this.instance;
  }

  /**
   * @param {Uint8Array} page
   * @param {string} script
   */
  edit(page, script) {
    return this.put("edit", { page, script: bytesOf(script) });
  }

  /**
   * @param {Uint8Array} page
   * @param {string} drawing
   */
  plot(page, drawing) {
    return this.put("plot", { page, script: bytesOf(drawing) });
  }

  /**
   * @param {Uint8Array} page
   * @returns {Check}
   */
  check(page) {
    return readCheck(textOf(this.put("check", { page })));
  }

  /** @param {Uint8Array} page */
  list(page) {
    return readItems(textOf(this.put("list", { page })));
  }

  /**
   * How bytes of a page are taken at some places, each behind the one before.
   * @param {Uint8Array} page
   * @param {number[]} places
   */
  takings(page, places) {
    return takingsOf(this.instanceOfAll(), page, places);
  }

  /**
   * The items of a page with what each changes, its looks numbered among those that are known.
   * @param {Uint8Array} page
   * @param {Known} known
   */
  items(page, known) {
    return new PageItems(page, this.list(page), readTrace(this.changes(page), known));
  }

  /** @param {Uint8Array} page */
  cells(page) {
    return textOf(this.put("cells", { page }));
  }

  /** @param {Uint8Array} page */
  changes(page) {
    return textOf(this.put("changes", { page }));
  }

  /** @param {Uint8Array} page */
  flash(page) {
    return textOf(this.put("flash", { page, number: TURNS }));
  }

  /**
   * What each line of a script changes, its looks numbered among those that are known.
   * @param {Uint8Array} page
   * @param {string} script
   * @param {Known} known
   * @returns {Trace}
   */
  trace(page, script, known) {
    return readTrace(textOf(this.put("trace", { page, script: bytesOf(script) })), known);
  }

  /**
   * What the program shows of lines on a page, line by line: the last look that each changes, or null.
   * @param {Uint8Array} page
   * @param {string[]} lines
   * @returns {(Look | null)[]}
   */
  lastLooks(page, lines) {
    const course = this.trace(page, `${lines.join("\n")}\n`, new Looks());
    /** @type {Map<number, Look>} */
    const looks = new Map(course.moments.map(({ place }, at) => {
      const end = at + 1 < course.moments.length ? course.moments[at + 1].first : course.count;
      return [place, course.looks[course.numbers[end - 1]]];
    }));
    return lines.map((_, index) => looks.get(index + 1) || null);
  }
}
