// What the viewer's modules find in a browser, as far as tests under Node need it: elements by their names, a canvas that keeps the colour of
// each pixel, and what the browser's language is. It stands before the modules. Also the pages that the tests read, and the module.
import { readFileSync } from "node:fs";
import { createRequire } from "node:module";
import { test } from "node:test";

const [, , texts, modulePath] = process.argv;
const { run, Decoder } = createRequire(import.meta.url)("../../library/tamligub.js");

// For each page its length and what the program puts.
export const pages = JSON.parse(readFileSync(texts, "utf8"));
export const module = modulePath ? new WebAssembly.Module(readFileSync(modulePath)) : null;

export class Canvas {
  constructor() {
    this.style = {};
    this.brush = { fillStyle: "", lineWidth: 1, clearRect() {}, strokeRect() {}, fillRect: (...area) => this.fill(...area) };
    [this.width, this.height, this.pixels, this.painted] = [0, 0, null, 0];
  }

  getContext() {
    return this.brush;
  }

  // A canvas whose size is set is empty.
  ready() {
    const size = this.width * this.height;
    if (!this.pixels || this.pixels.length !== size) this.pixels = new Uint32Array(size);
    return this.pixels;
  }

  fill(left, top, width, height) {
    const [colour, pixels] = [parseInt(this.brush.fillStyle.slice(1), 16) + 0x1000000 * this.brush.fillStyle.length, this.ready()];
    for (let y = top; y < top + height; y++) pixels.fill(colour, y * this.width + left, y * this.width + left + width);
    this.painted += width * height;
  }

  // The colour at a pixel as it was given, or "" where nothing is painted.
  colourAt(x, y) {
    const pixel = this.ready()[y * this.width + x];
    const digits = Math.floor(pixel / 0x1000000) - 1;
    return digits > 0 ? `#${(pixel % 0x1000000).toString(16).toUpperCase().padStart(digits, "0")}` : "";
  }
}

const elements = new Map();
// An element of the document by its name, as far as its text goes.
export function element(id) {
  if (!elements.has(id)) elements.set(id, { textContent: "", files: [], value: "" });
  return elements.get(id);
}

globalThis.window = globalThis;
Object.defineProperty(globalThis, "navigator", { value: { language: "en" }, configurable: true });
globalThis.document = { getElementById: element, createElement: () => new Canvas() };
globalThis.Tamligub = { run, Decoder };

// What calls the program, where a test has put another in its place.
export const restored = () => Object.assign(globalThis.Tamligub, { run, Decoder });
export { Decoder };
// A test over the module: without one it is left out.
export const asked = (name, act) => test(name, { skip: module ? false : "there is no module" }, act);
// The bytes of a page.
export const stored = (name) => new Uint8Array(readFileSync(new URL(`../../pages/${name}.btx`, import.meta.url)));
