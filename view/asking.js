// Asks the program, which stands beside these modules. A long page is handed to a Worker, so that what is shown goes on meanwhile; where a
// browser has none the same thread does it.
import { beside, textOf } from "./beside.js";
import { TextFault } from "./text.js";

/** @typedef {import("./types.js").Answer} Answer */
/** @typedef {import("./types.js").Things} Things */
/** @typedef {{ done: (answer: Answer) => void, failed: (fault: Error) => void }} Waiting */

// Of fewer bytes the program tells all within the time of a frame.
const LONG = 4096;
// The statuses of a page that is read to its end, and the others that have words of their own, those of `btx`.
const WHOLE = [0, 1];
const NO_ROOM = 5;
const ENDS = [4, 6, 7];
const ANSWERS = `onmessage = ({ data: { number, module, word, things } }) => {
  try {
    postMessage({ number, answer: run(module, word, things) });
  } catch (fault) {
    postMessage({ number, fault: String(fault) });
  }
};`;

// There is no Worker, or it can't begin.
class NoWorker extends Error {}

/**
 * The one Worker, begun when it is needed first; null once none can be had.
 * @type {Helper | null | undefined}
 */
let helper;

class Helper {
  constructor() {
    /** @type {Map<number, Waiting>} */
    this.waiting = new Map();
    this.last = 0;
    const address = URL.createObjectURL(new Blob([`const { run } = (${beside().calling})();\n${ANSWERS}`], { type: "text/javascript" }));
    this.worker = new Worker(address);
    this.worker.onmessage = ({ data }) => this.came(data);
    this.worker.onerror = (event) => {
      event.preventDefault();
      this.ended();
    };
  }

  /** @param {{ number: number, answer?: Answer, fault?: string }} told */
  came({ number, answer, fault }) {
    const asked = this.waiting.get(number);
    this.waiting.delete(number);
    if (asked && answer) asked.done(answer);
    else if (asked) asked.failed(new Error(fault));
  }

  // It can't go on: what waits is done without it.
  ended() {
    helper = null;
    for (const { failed } of this.waiting.values()) failed(new NoWorker());
    this.waiting.clear();
  }

  /**
   * @param {WebAssembly.Module} module
   * @param {string} word
   * @param {Things} things
   * @returns {Promise<Answer>}
   */
  ask(module, word, things) {
    return new Promise((done, failed) => {
      const number = ++this.last;
      this.waiting.set(number, { done, failed });
      this.worker.postMessage({ number, module, word, things });
    });
  }
}

function helperOf() {
  if (helper !== undefined) return helper;
  try {
    helper = new Helper();
  } catch (fault) {
    helper = null;
  }
  return helper;
}

/**
 * What the program answers of a page.
 * @param {WebAssembly.Module} module
 * @param {string} word
 * @param {Things & { page: Uint8Array }} things
 * @returns {Promise<Answer>}
 */
export async function ask(module, word, things) {
  const found = things.page.length > LONG ? helperOf() : null;
  if (!found) return beside().run(module, word, things);
  try {
    return await found.ask(module, word, things);
  } catch (fault) {
    if (!(fault instanceof NoWorker)) throw fault;
    return beside().run(module, word, things);
  }
}

/**
 * That the program ended with a status, and what that says of a page.
 * @param {number} status
 */
export const statusFault = (status) => new TextFault(ENDS.includes(status) ? `ended${status}` : "ended", { status });

/**
 * The text of an answer that is whole. A browser gives an empty one of bytes whose text would be longer than it can hold.
 * @param {Answer} answer
 */
export function wholeText({ status, text }) {
  if (!WHOLE.includes(status) && status !== NO_ROOM) throw statusFault(status);
  const shown = status === NO_ROOM ? "" : textOf(text);
  if (!shown && text.length) throw new TextFault("textTooLong");
  return shown;
}
