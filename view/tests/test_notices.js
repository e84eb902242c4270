// The text of a place that a decoder tells, over all pages: what it tells, in pieces of a line, is what the program says of the cells.
import assert from "node:assert";
import { test } from "node:test";
import { Decoder, asked, module, pages, stored } from "./stub.js";
import { bytesOfKeys, flashingText, lookText } from "../notices.js";

const PLACE = 1;
const BLANK = "- 11.00 FFF 000 S---";

// What a decoder has told of all places once a page is fed in pieces, as lines of `cells`; what flashes is told of its own phase.
function toldOf(page, size) {
  const decoder = new Decoder(module);
  const cells = new Map();
  const take = (notices) => notices.filter(({ kind }) => kind === PLACE).forEach((it) => cells.set(40 * (it.row - 1) + it.column - 1, lookText(it)));
  for (let at = 0; at < page.length; at += size) take(decoder.feed(page.subarray(at, at + size)));
  take(decoder.finish());
  decoder.close();
  const told = [...cells].filter(([, text]) => text !== BLANK).sort(([one], [other]) => one - other);
  return told.map(([cell, text]) => `${Math.floor(cell / 40) + 1} ${(cell % 40) + 1} ${text}`);
}

asked("a decoder tells what the program says of the cells", () => {
  const steady = (line) => line.replace(/[SFIR123](...)$/, "S$1");
  for (const [name, { cells }] of Object.entries(pages)) {
    for (const size of [7, 4096]) assert.deepStrictEqual(toldOf(stored(name), size), cells.split("\n").slice(0, -1).map(steady), name);
  }
});

test("looks are written part by part", () => {
  const paint = (red, green, blue, behind = 0) => ({ red, green, blue, behind });
  const it = {
    sign: { kind: 1, set: 0, code: 0x61, accent: 0x48 }, h: 2, w: 1, dy: 1, dx: 0, fore: paint(15, 0, 10), back: paint(0, 0, 0, 1),
    flash: 1, conceal: 1, lined: 0, boxed: 1, pattern: null,
  };
  assert.strictEqual(lookText(it), "P61+48 21.10 F0A --- Sc-b");
  const flashing = [0, 1, 2, 3, 4, 5, 6].map((flash) => flashingText({ ...it, flash }).slice(-4));
  assert.deepStrictEqual(flashing, ["Sc-b", "Fc-b", "Ic-b", "Rc-b", "1c-b", "2c-b", "3c-b"]);
  const pattern = { w: 6, h: 6, planes: 2, inks: 4, bits: [0xfffn, 1n, 9n], colours: [paint(0, 0, 0), paint(15, 0, 0), paint(0, 15, 0), paint(0, 0, 0, 1)] };
  const drawn = { ...it, sign: { kind: 2, set: 4, code: 0x21, accent: 0 }, conceal: 0, lined: 1, boxed: 0, pattern };
  assert.strictEqual(lookText(drawn), "%6x6x2/0000000000000FFF0000000000000001/000F000F0--- 21.10 F0A --- S-l-");
  assert.strictEqual(lookText({ ...it, sign: { kind: 0, set: 0, code: 0, accent: 0 } }), "- 21.10 F0A --- Sc-b");
});

test("keys are sent as the bytes of a terminal", () => {
  assert.deepStrictEqual([...bytesOfKeys("*12ä#A")], [0x13, 0x31, 0x32, 0x1c, 0x41]);
});
