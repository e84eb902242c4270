// The types of what several modules hand each other, in JSDoc alone: nothing of this file runs, and nothing of it stands in a page.

/**
 * A sign: the letter of its set, its code, and the code of its accent or 0.
 * @typedef {{ set: string, code: number, accent: number }} Sign
 */

/**
 * A pattern: its form, its digits, the paints of its inks where it has several planes, and its pixels once they are read.
 * @typedef {{ width: number, height: number, planes: number, words: string, inks: string[], pixels?: Uint8Array }} Pattern
 */

/**
 * How a cell looks; `text` is the look as it was read.
 * @typedef {Sign & {
 *   text: string, kind: string, pattern: Pattern | null, high: number, wide: number, down: number, right: number,
 *   fore: string, back: string, flash: string, concealed: boolean, lined: boolean, boxed: boolean,
 * }} Look
 */

/** @typedef {{ place: number, length: number, number: number, name: string }} Refusal */

/**
 * A command or a line that changes cells: its place, the number of change lines before it, and what is refused there.
 * @typedef {{ place: number, first: number, refusal: Refusal | null }} Moment
 */

/**
 * Change lines as they are read: the cell of each and the number of its look, and the moments.
 * @typedef {{ cells: Uint16Array, numbers: Uint32Array, count: number, looks: Look[], moments: Moment[] }} Course
 */

/**
 * The text of `trace`: with the lines at which nothing could be undone or redone.
 * @typedef {Course & { refusals: Refusal[], nothings: number[] }} Trace
 */

/** @typedef {{ looks: Look[], grid: Uint32Array }} Cells */
/** @typedef {{ refusals: Refusal[], items: number, refused: number }} Check */
/** @typedef {{ colour: string, line: number, start: number, end: number }} Run */
/** @typedef {Record<string, string | number>} Values */

/**
 * A page as it is taken: what the program puts of it, and its bytes. `times` are those of a recording: milliseconds and a length for each
 * piece. In an archive the text of changes is packed, or is made by the module.
 * @typedef {{
 *   name: string, changes: string | null, check?: string | null, page: Uint8Array | null, flash?: string | null, times?: number[][] | null,
 *   deflated?: string, course?: import("./text.js").Course, film?: import("./film.js").Film,
 * }} Page
 */

/** @typedef {{ name: string, bytes: Uint8Array }} File */

/**
 * What is handed to the program: a page, a page and a script, a number, or a page and a number.
 * @typedef {{ page?: Uint8Array, script?: Uint8Array, number?: number }} Things
 */

/** @typedef {{ status: number, text: Uint8Array }} Answer */
/** @typedef {(module: WebAssembly.Module, word: string, things: Things) => Answer} Runs */

/**
 * What a decoder tells of a place or of the page; library/tamligub.js says more.
 * @typedef {{ red: number, green: number, blue: number, behind: number }} Colour
 * @typedef {{
 *   kind: number, row: number, column: number, sign: { kind: number, set: number, code: number, accent: number },
 *   dy: number, dx: number, w: number, h: number, fore: Colour, back: Colour, flash: number, conceal: number, lined: number, boxed: number,
 *   pattern: { bits: bigint[], w: number, h: number, planes: number, inks: number, colours: Colour[] } | null,
 * }} Notice
 * @typedef {{ feed: (bytes: Uint8Array) => Notice[], flashTurn: () => Notice[], close: () => void, state: () => any }} Decoder
 */

/**
 * What stands beside the modules under the name Tamligub: what calls the program (library/tamligub.js) and its text, the module of an archive
 * in base64, and the title of an archive.
 * @typedef {{
 *   run: Runs, Decoder: new (module: WebAssembly.Module) => Decoder, calling: () => { run: Runs }, module: string, site?: { title?: string },
 * }} Beside
 */

export {};
