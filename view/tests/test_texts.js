// Reading texts, films, and which colour a dot has, over the pages of the repository and what the program puts for each. The other values are
// those of the man page and of docs/PROFILE.md.
import assert from "node:assert";
import { test } from "node:test";
import { pages } from "./stub.js";
import { seenText } from "../dots.js";
import { Film, lastGrid, textOfRows } from "../film.js";
import { unicodeOf } from "../signs.js";
import {
  CELLS, COLUMNS, PHASES, TextFault, pixelsOf, readCells, readChanges, readCheck, readLook,
} from "../text.js";

const GOOD = "0 1 1 P41 11.00 FFF 000 S---\n";

const look = readLook;
const looksOf = (grid, looks) => Array.from(grid, (number) => looks[number].text);
const filmOf = (page) => new Film(readChanges(page.changes), null);

test("a film ends with the screen that the program shows", () => {
  for (const [name, page] of Object.entries(pages)) {
    const film = filmOf(page);
    film.go(film.moments.length);
    const text = textOfRows({ looks: film.changes.looks, grid: film.grid }, false).split("\n");
    assert.deepStrictEqual(text.slice(0, page.show.split("\n").length - 1), page.show.split("\n").slice(0, -1), name);
  }
});

test("a film, its last grid and the cells of the program have the same looks", () => {
  for (const [name, page] of Object.entries(pages)) {
    const film = filmOf(page);
    film.go(film.moments.length);
    const cells = readCells(page.cells);
    assert.deepStrictEqual(looksOf(lastGrid(film.changes), film.changes.looks), looksOf(film.grid, film.changes.looks), name);
    if (page.show.split("\n").length === 25) assert.deepStrictEqual(looksOf(cells.grid, cells.looks), looksOf(film.grid, film.changes.looks), name);
  }
});

// What a text of `flash` tells of each phase, and again of the first: the texts of all cells, line by line.
function toldOf(flash) {
  const seen = new Array(CELLS).fill("- 11.00 FFF 000 S---");
  const lines = flash.split("\n").slice(0, -1).map((line) => line.split(" "));
  return Array.from({ length: PHASES + 1 }, (_, turn) => {
    for (const [, row, column, ...text] of lines.filter((line) => line[0] === String(turn))) {
      seen[(row - 1) * COLUMNS + (column - 1)] = text.join(" ");
    }
    return [...seen];
  });
}

test("each phase is painted as the program's flash tells it", () => {
  for (const [name, page] of Object.entries(pages)) {
    const film = filmOf(page);
    film.go(film.moments.length);
    toldOf(page.flash).forEach((told, turn) => {
      const painted = Array.from(film.grid, (number) => seenText(film.changes.looks[number], turn % PHASES));
      assert.deepStrictEqual(painted, told, `${name}, turn ${turn}`);
    });
  }
  assert.ok(pages.flashing.flash.split("\n").length > 100);
});

const toldFilm = (page, flash) => new Film(readChanges(page.changes), null, flash);

test("at the end of a page its phases are those of the lines of flash", () => {
  for (const [name, page] of Object.entries(pages)) {
    const film = toldFilm(page, page.flash);
    assert.strictEqual(film.isTold(), film.moments.length === 0, name);
    film.go(film.moments.length);
    assert.strictEqual(film.isTold(), true, name);
    const told = toldOf(page.flash).slice(0, PHASES);
    assert.deepStrictEqual(Array.from(film.phases, (grid) => looksOf(grid, film.changes.looks)), told, name);
    assert.strictEqual(film.isToldToFlash(), /^[1-6] /m.test(page.flash), name);
  }
});

test("turns after the sixth are the same again, and lines win over what the looks mean", () => {
  const page = pages.flashing;
  const more = page.flash + page.flash.split("\n").filter((line) => line.startsWith("2 ")).map((line) => "8" + line.slice(1) + "\n").join("");
  assert.deepStrictEqual(toldFilm(page, more).phases, toldFilm(page, page.flash).phases);
  const film = toldFilm({ changes: "0 1 1 P41 11.00 FFF 000 F---\n" }, "0 1 1 P42 11.00 FFF 000 S---\n4 1 1 P43 11.00 FFF 000 S---\n6 1 1 P42 11.00 FFF 000 S---\n");
  assert.deepStrictEqual(Array.from(film.phases, (grid) => film.changes.looks[grid[0]].code), [0x42, 0x42, 0x42, 0x42, 0x43, 0x43]);
});

test("a text of flash that is cut off, of another page or of no lines is told", () => {
  const page = pages.flashing;
  const cut = page.flash.split("\n").filter((line) => !line.startsWith("6 ")).join("\n");
  assert.throws(() => toldFilm(page, cut), (fault) => fault instanceof TextFault && fault.key === "openFlash");
  assert.throws(() => toldFilm(page, pages.title.flash), (fault) => fault instanceof TextFault && fault.key === "otherFlash");
  for (const [text, number] of [["hello\n", 1], [GOOD + "! 0 2 6 Interrupted\n", 2], [GOOD.replace("0", "1") + GOOD, 2]]) {
    assert.throws(() => toldFilm(page, text), (fault) => fault.number === number && fault.key === "notFlash", text);
  }
});

test("back gives what was there before", () => {
  const film = filmOf(pages.ticker);
  const grids = [];
  for (let moment = 0; moment <= film.moments.length; moment++) {
    film.go(moment);
    grids.push(Array.from(film.grid));
  }
  for (let moment = film.moments.length; moment >= 0; moment--) {
    film.go(moment);
    assert.deepStrictEqual(Array.from(film.grid), grids[moment]);
  }
});

test("a moment comes with the byte at its place", () => {
  const film = filmOf({ changes: "3 1 1 P41 11.00 FFF 000 S---\n3 1 2 P41 11.00 FFF 000 S---\n! 5 2 6 Interrupted\n9 1 3 P41 11.00 FFF 000 S---\n" });
  assert.deepStrictEqual([0, 3, 4, 5, 6, 9, 10].map((bytes) => film.momentsWithin(bytes)), [0, 0, 1, 1, 2, 2, 3]);
  assert.strictEqual(film.length, 10);
});

test("looks are read field by field", () => {
  const read = look("P61+48 22.01 F0F --- 1clb");
  const fields = ["kind", "set", "code", "accent", "high", "wide", "down", "right", "fore", "back", "flash", "concealed", "lined", "boxed"];
  assert.deepStrictEqual(fields.map((field) => read[field]), ["sign", "P", 0x61, 0x48, 2, 2, 0, 1, "F0F", "---", "1", true, true, true]);
  for (const text of ["P41 11.00 FFF 000 S--", "Q41 11.00 FFF 000 S---", "P41 31.00 FFF 000 S---", "P41 11.00 fff 000 S---", "%12x10x1/FF 11.00 FFF 000 S---", ""]) {
    assert.strictEqual(look(text), null, text);
  }
});

test("the pixel of plane p, line y and column x is bit (p * height + y) * width + x", () => {
  const { pattern } = look("%6x6x2/0000000FFFFFFFFF0000000000000000/000F000F0FF0 11.00 FFF 000 S---");
  const pixels = Array.from(pixelsOf(pattern.width, pattern.height, pattern.planes, pattern.words));
  assert.deepStrictEqual(pixels, Array(36).fill(1));
  assert.deepStrictEqual(Array.from(pattern.inks), ["000", "F00", "0F0", "FF0"]);
  assert.deepStrictEqual(Array.from(pixelsOf(6, 6, 1, "0000000800000041")).flatMap((pixel, at) => (pixel ? [at] : [])), [0, 6, 35]);
});

test("a text names the first line that is not understood", () => {
  for (const [text, number] of [["hello\n", 1], [GOOD + GOOD.replace("0 1 1", "0 25 1"), 2], [GOOD.replace("0", "5") + GOOD, 2], [GOOD + "\n", 2]]) {
    assert.throws(() => readChanges(text), (fault) => fault.number === number, text);
  }
  for (const [text, number] of [["0 1 P41 11.00 FFF 000 S---\n", 1], ["1 1 P41 11.00 FFF 000 S---\n1 41 P41 11.00 FFF 000 S---\n", 2], ["1 1 P41\n", 1]]) {
    assert.throws(() => readCells(text), (fault) => fault.number === number, text);
  }
  for (const page of ["\x0cGuten Tag", GOOD + "\x1b#!A\n", "B\ufffdrse\n"]) assert.throws(() => readChanges(page), { key: "noText" });
  const check = readCheck("! 0 2 6 Interrupted\nitems 3 refused 1\n");
  assert.deepStrictEqual([check.items, check.refused, check.refusals.length, check.refusals[0].name], [3, 1, 1, "Interrupted"]);
  assert.throws(() => readCheck("items 3\n"), (fault) => fault.number === 1);
});

test("signs are those of the profile's table", () => {
  const unicode = (shape) => unicodeOf(look(`${shape} 11.00 FFF 000 S---`));
  const wanted = { P41: "A", P7F: "\u25a0", "P61+48": "a\u0308", "P61+40": "a", S21: "¡", S3F: "¿", S55: "♪", S65: "\ufffd", S7E: "ŋ", M21: "\u2592", N50: "\u2592", D41: "\u25a1" };
  for (const [shape, sign] of Object.entries(wanted)) assert.strictEqual(unicode(shape), sign, shape);
});
