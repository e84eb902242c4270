// The items of a page, and what a cut makes of them: lines and names are those of docs/PROFILE.md, screens those of the program.
import assert from "node:assert";
import { readFileSync } from "node:fs";
import { test } from "node:test";
import { asked, asker, bytes, rowOf, sheetOf } from "./program.js";
import { Cuts } from "../cuts.js";
import { endOf, linesAfter, readItems, whatOf } from "../items.js";
import { CELLS, Looks } from "../shared.js";

const signs = (text) => Array.from(text, (sign) => sign.charCodeAt(0));
const stored = (name) => new Uint8Array(readFileSync(new URL(`../../pages/${name}.btx`, import.meta.url)));

test("items are read with place, length, name and parameters", () => {
  const items = readItems("0 3 APA 5 7\n3 1 GRAPHIC 4/1\n4 2 REFUSED Interrupted\n");
  assert.deepStrictEqual(items.map(whatOf), ["APA 5 7", "GRAPHIC 4/1", "REFUSED Interrupted"]);
  assert.deepStrictEqual(items.map(({ place, length }) => [place, length]), [[0, 3], [3, 1], [4, 2]]);
  assert.strictEqual(endOf(items[2]), 6);
  assert.deepStrictEqual(readItems(""), []);
  for (const bad of ["3 APA\n", "1 0 APA\n", "a b C\n", "0 1 \n"]) assert.throws(() => readItems(bad), { key: "notItems" });
});

const itemsOf = (page) => asker().items(page, new Looks());
const linesOf = (page, count, inWords = true) => linesAfter(itemsOf(page), count, asker(), inWords);

asked("after each item the screen is that of the bytes up to its end, and a cell was made by the last that changed it", () => {
  const page = bytes(0x1f, 0x42, 0x43, 0x41, 0x42, 0x1f, 0x42, 0x44, 0x43);
  const items = itemsOf(page);
  const letters = (count) => [42, 43].map((cell) => items.course.looks[items.grid(count, CELLS)[cell]].code);
  assert.deepStrictEqual([0, 1, 2, 3, 4, 5].map(letters), [[0, 0], [0, 0], [0x41, 0], [0x41, 0x42], [0x41, 0x42], [0x41, 0x43]]);
  assert.deepStrictEqual([0, 1, 2, 3, 4].map((index) => items.cellsOf(index)), [[], [42], [43], [], [43]]);
  assert.deepStrictEqual([items.madeBy(43, 5), items.madeBy(43, 4), items.madeBy(42, 5), items.madeBy(42, 1), items.madeBy(0, 5)], [4, 2, 1, -1, -1]);
  assert.deepStrictEqual([0, 1, 4, 5].map((count) => items.bytesOf(count)), [0, 3, 8, 9]);
});

asked("items are said in words where there are some, and neighbours else by their bytes", () => {
  const page = bytes(0x1f, 0x45, 0x47, 0x0f, ...signs("Hallo"), 0x81, ...signs("AB"), 0x19, 0x7b, 0x12, 0x43, 0x9b, 0x32, 0x40, 0x0e, 0x21, 0x0c);
  const { lines, count } = linesOf(page, 0);
  assert.deepStrictEqual(lines, [
    "at 5 7", "text Hallo", "c1 1", "# ABß", "raw 4142197B", "repeat 3", "table 2", "raw 0E21", "clear",
  ]);
  assert.strictEqual(count, 0);
  assert.deepStrictEqual(linesOf(page, 7).lines.slice(0, 3), ["c1 1", "# ABß", "raw 4142197B"]);
  assert.deepStrictEqual(linesOf(page, 0, false).lines, ["raw 1F45470F48616C6C6F814142197B12439B32400E210C"]);
  // What the line text can't say stays bytes.
  assert.deepStrictEqual(linesOf(bytes(0x0f, 0x7f, 0x41), 0).lines, ["# ■A", "raw 0F7F41"]);
});

asked("letters are text wherever left bytes take the primary set of G0, behind a lock or not", () => {
  const lock = [0x1b, 0x29, 0x40];
  for (const [page, wanted] of [
    [[...signs("AB C"), 0x0c], ["text AB C", "clear"]],
    [[...signs(" "), 0x12, 0x67], ["text  ", "repeat 39"]],
    // G1 with the primary set, and G0 with mosaics.
    [[...lock, 0x0e, ...signs("AB"), 0x0f, ...signs("CD")], ["raw 1B29400E", "# AB", "raw 4142", "text CD"]],
    [[0x1b, 0x28, 0x63, ...signs("ab")], ["raw 1B28636162"]],
    // Mosaics of the serial set.
    [[0x1f, 0x2f, 0x43, 0x91, ...signs("ab"), 0x81, ...signs("ab")], ["raw 1F2F43", "c1 17", "raw 6162", "c1 1", "text ab"]],
    // What changes nothing, since it stands there, or since what is there is protected.
    [[...signs("AB"), 0x0d, ...signs("AB")], ["text AB", "return", "text AB"]],
    [[0x9b, 0x31, 0x50, ...signs("AB"), 0x9b, 0x31, 0x51, 0x0d, ...signs("CD")], ["protect", "text AB", "unprotect", "return", "text CD"]],
  ]) assert.deepStrictEqual(linesOf(bytes(...page), 0).lines, wanted);
});

asked("an accent and a shift have no letter of their own in the comment", () => {
  for (const [page, wanted] of [
    [[0x52, 0xc8, 0x61, ...signs("tsel ")], ["# Rätsel", "raw 52C8617473656C20"]],
    [[...signs("gest"), 0x19, 0x48, 0x6f, ...signs("rte "), 0xc8, 0x55, 0x62], ["# gestörte Üb", "raw 6765737419486F72746520C85562"]],
    [[0x19, 0x7b, 0xfb, 0x0c], ["# ßß", "raw 197BFB", "clear"]],
    // Mosaics beside them, those of G3 after a shift too, and an accent that a position leaves behind.
    [[...signs("AB"), 0x1d, 0x51, 0xfb, 0x0e, 0x35, 0x0f], ["text AB", "raw 1D51", "# ß", "raw FB", "raw 0E350F"]],
    [[0x41, 0xc8, 0x1f, 0x42, 0x42, 0x61], ["text A", "raw C8", "at 2 2", "text a"]],
  ]) assert.deepStrictEqual(linesOf(bytes(...page), 0).lines, wanted);
});

asked("what stands in a unit takes the unit with it", () => {
  const colours = bytes(0x41, 0x1f, 0x26, 0x20, 0x22, 0x1f, 0x26, 0x30, 0x33, 0x5f, 0x0c);
  for (const count of [1, 2, 3]) assert.deepStrictEqual(linesOf(colours, count), { count: 1, lines: ["raw 1F2620221F2630335F", "clear"] });
  assert.deepStrictEqual(linesOf(colours, 4), { count: 4, lines: ["clear"] });
  // Where other items stand between a header and what needs it, all of them are bytes.
  const parted = bytes(0x1f, 0x26, 0x20, 0x22, 0x1f, 0x41, 0x41, 0x1f, 0x26, 0x30, 0x33, 0x5f);
  for (const count of [0, 1, 2]) {
    const { lines } = linesOf(parted, count);
    assert.ok(lines.every((line) => !line.startsWith("raw 1F2630")), String(lines));
  }
});

asked("bytes that are refused or passed over are left out", () => {
  const page = bytes(0x41, 0x1f, 0x26, 0x21, 0x41, 0x42, 0x1f, 0x41, 0x41, 0x43);
  const names = itemsOf(page).items.map(({ name }) => name);
  assert.ok(names.includes("SKIPPED") || names.includes("REFUSED"), String(names));
  const { lines } = linesOf(page, 0);
  assert.deepStrictEqual(lines.slice(-2), ["at 1 1", "text C"]);
  assert.ok(!lines.some((line) => line.includes("4142")), String(lines));
});

function cutOf(page, script = "") {
  const sheet = sheetOf(page, script);
  const cuts = new Cuts({ sheet, asker: asker() });
  return { sheet, cuts, items: () => asker().items(sheet.page, sheet.known), shown: () => asker().cells(sheet.edited()) };
}

asked("a page is cut after an item, and the cut is undone and made again", () => {
  const page = bytes(0x1f, 0x42, 0x41, ...signs("AB"), 0x1f, 0x43, 0x41, ...signs("CD"));
  const { sheet, cuts, items } = cutOf(page, "at 5 1\ntext E\n");
  const script = sheet.script();
  cuts.cut(items(), 3, script);
  assert.deepStrictEqual([sheet.page, rowOf(sheet, 2), rowOf(sheet, 3), rowOf(sheet, 5)], [page.slice(0, 5), "AB", "", "E"]);
  sheet.add(["at 6 1", "text F"]);
  // First what came after the cut is undone, then the cut, then what came before.
  assert.ok(!cuts.undoRedo("undo") && sheet.undoRedo("undo"));
  assert.ok(cuts.undoRedo("undo"));
  assert.deepStrictEqual([sheet.page, sheet.script(), rowOf(sheet, 3), rowOf(sheet, 6)], [page, script, "CD", ""]);
  assert.ok(!cuts.undoRedo("undo") && sheet.undoRedo("undo"));
  assert.strictEqual(rowOf(sheet, 5), "");
  assert.ok(!cuts.undoRedo("redo") && sheet.undoRedo("redo"));
  assert.ok(cuts.undoRedo("redo"));
  assert.deepStrictEqual([sheet.page, rowOf(sheet, 3), rowOf(sheet, 6)], [page.slice(0, 5), "", ""]);
  assert.ok(!cuts.undoRedo("redo") && sheet.undoRedo("redo"));
  assert.deepStrictEqual([rowOf(sheet, 2), rowOf(sheet, 5), rowOf(sheet, 6)], ["AB", "E", "F"]);
  // What is stored of them brings them back.
  const again = cutOf(sheet.page, sheet.script());
  again.cuts.take(cuts.stored());
  assert.ok(!again.cuts.undoRedo("undo") && again.sheet.undoRedo("undo") && again.cuts.undoRedo("undo"));
  assert.deepStrictEqual([again.sheet.page, again.sheet.script()], [page, `${script}\nundo\nundo\n\nredo\nredo\n`]);
  // Another action in its place, and the cut isn't made again.
  again.sheet.add(["text G"]);
  assert.ok(!again.cuts.undoRedo("redo"));
});

asked("a cut that was undone is made again after lines that would show something else", () => {
  const page = bytes(0x1f, 0x42, 0x41, ...signs("AB"), 0x1f, 0x43, 0x41, ...signs("CD"));
  const { sheet, cuts, items } = cutOf(page);
  cuts.cut(items(), 3, "");
  assert.ok(cuts.undoRedo("undo"));
  const real = cuts.needs;
  let calls = 0;
  cuts.needs = { sheet, asker: Object.assign(asker(), { cells: () => String(calls++) }) };
  assert.strictEqual(cuts.makeLines(items(), 1), null);
  cuts.needs = real;
  assert.deepStrictEqual([calls > 1, sheet.page, rowOf(sheet, 3)], [true, page, "CD"]);
  assert.ok(cuts.undoRedo("redo"));
  assert.deepStrictEqual([sheet.page, rowOf(sheet, 3)], [page.slice(0, 5), ""]);
});

asked("the lines of stored pages are in words", () => {
  for (const [name, texts, noted] of [["title", 6, "Schrift in doppelter Größe"], ["boat", 12, ""], ["weather", 15, "Wärme, Grad"], ["timetable", 20, "München"], ["answers", 5, ""]]) {
    const { sheet, cuts, items } = cutOf(stored(name));
    assert.ok(cuts.makeLines(items(), 0), name);
    const { lines } = sheet;
    assert.ok(lines.filter((line) => line.startsWith("text ")).length > texts, `${name}: ${lines.join("\n")}`);
    assert.ok(!noted || lines.includes(`# ${noted}`), `${name}: ${lines.join("\n")}`);
  }
});

asked("a stored page with lines of the rest shows the same, wherever it is cut", () => {
  for (const name of ["title", "patterns", "refused"]) {
    const page = stored(name);
    const count = itemsOf(page).items.length;
    for (const at of [0, Math.floor(count / 3), count - 2]) {
      const { sheet, cuts, items, shown } = cutOf(page, "at 24 1\ntext x\nundo\nundo\nundo\nat 24 2\ntext y\n");
      const before = [shown(), sheet.script()];
      const made = cuts.makeLines(items(), at);
      assert.ok(made && made.items >= count - at && made.lines > 0, `${name}, after ${at}`);
      assert.strictEqual(shown(), before[0], `${name}, after ${at}`);
      assert.ok(sheet.page.length < page.length && page.subarray(0, sheet.page.length).every((byte, place) => byte === sheet.page[place]));
      assert.ok(cuts.undoRedo("undo"));
      assert.deepStrictEqual([sheet.page, sheet.script()], [page, before[1]]);
    }
  }
});
