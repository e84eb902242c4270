// What the editor takes of the viewer's modules (../view), and of what calls the module (../library/tamligub.js). In the page of `btx editor`
// these stand before the editor's modules and add to the same name, so of this file nothing stands there: it is for Node and for the types.

export { pixelsOf, readCells, readCheck, readFlash, readLook, readTrace, CELLS, COLUMNS, Looks, PHASES, ROWS, TextFault } from "../view/text.js";
export { unicodeOf } from "../view/signs.js";
export { colourText, flashingText } from "../view/notices.js";
export { PICTURE } from "../view/dots.js";
export { Painter } from "../view/paint.js";
export { lastGrid } from "../view/film.js";
export { Screen, TALL, paintStill } from "../view/screen.js";

/**
 * The decoder of library/tamligub.js, as far as the editor asks it.
 * @typedef {{
 *   skim: (bytes: Uint8Array) => void, finish: () => Notice[], line: (text: string) => Notice[] | null,
 *   make: (text: string) => boolean,
 *   kept: () => number, undone: () => number, look: (row: number, column: number) => Notice, close: () => void,
 *   state: () => {
 *     row: number, column: number, c1: number, table: number, first: number, last: number, implicit: number, revision: number, protect: number,
 *     rows: number, wrap: number, g: number[], left: number, single: number, accent: number,
 *   },
 *   colours: () => { entries: Notice["fore"][], dclut: number[] },
 * }} OneDecoder
 * @typedef {import("./types.js").Notice} Notice
 * @typedef {import("./types.js").Run} Run
 */

/** @type {{ run: Run, Decoder: new (instance: WebAssembly.Instance) => OneDecoder }} */
export const { run, Decoder } = /** @type {any} */ (globalThis).Tamligub;
