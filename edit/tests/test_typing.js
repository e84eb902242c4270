// Writing at the caret, over the program: the lines are reckoned from the keys.
import assert from "node:assert";
import { test } from "node:test";
import { asked, rowOf, sheetOf } from "./program.js";
import { knownSigns, linesOfSigns } from "../lines.js";
import { Typing, leftOut, spread } from "../typing.js";
import { word } from "../words.js";

// The caret over a sheet, with a pen of some lines, and the kinds of what it tells, and what it says.
function caretOf(lines = [], ready = () => true) {
  const [sheet, told, said, pen] = [sheetOf(), [], [], { chosen: lines }];
  const needs = { sheet, ready, drawingKey: () => false, pen: { key: () => JSON.stringify(pen.chosen), lines: () => ({ set: [], lines: pen.chosen }) } };
  const typing = new Typing(needs, ({ kind, text }) => {
    told.push(kind);
    if (text) said.push(text);
  });
  const press = (...keys) => keys.forEach((key) => typing.key({ key, ctrlKey: false }));
  return { typing, sheet, told, said, pen, press, place: () => [typing.row, typing.column] };
}

asked("letters that are typed one by one are one line", () => {
  const { typing, sheet, told, place } = caretOf();
  for (const letter of "Hallo") typing.type(letter);
  assert.strictEqual(sheet.script(), "at 1 1\ntext Hallo\n");
  assert.deepStrictEqual(place(), [1, 6]);
  assert.deepStrictEqual(told, new Array(5).fill("changed"));
});

asked("a letter that text can't say makes the line raw, with a note", () => {
  const { typing, sheet } = caretOf();
  typing.type("f");
  typing.type("ü");
  assert.strictEqual(sheet.script(), "at 1 1\n# fü\nraw 0F66194875\n");
});

asked("the pen stands before the first sign, and again where another was chosen", () => {
  const { typing, sheet, pen } = caretOf(["c1 1"]);
  typing.type("A");
  typing.end();
  typing.type("B");
  pen.chosen = ["c1 2"];
  typing.end();
  typing.type("C");
  assert.strictEqual(sheet.script(), "at 1 1\nc1 1\ntext A\n\ntext B\n\nat 1 3\nc1 2\ntext C\n");
  assert.strictEqual(rowOf(sheet, 1), "ABC");
});

asked("the last sign is taken back from its line, and with the first goes the action", () => {
  const { typing, sheet, press, place } = caretOf();
  typing.place(4, 7);
  typing.type("AB");
  press("Backspace");
  assert.deepStrictEqual([sheet.script(), place()], ["at 4 7\ntext A\n", [4, 8]]);
  press("Backspace");
  assert.deepStrictEqual([sheet.script(), place()], ["", [4, 7]]);
  // Where nothing was typed a blank is written before the caret.
  press("Backspace");
  assert.deepStrictEqual([sheet.script(), place()], ["at 4 6\ntext  \n", [4, 6]]);
});

asked("where what is protected or covered stays it is said, and where the same sign stands it isn't", () => {
  const { typing, sheet, told, press } = caretOf();
  sheet.add(["at 2 1", "protect", "text AB", "unprotect", "at 4 1", "c1 13", "text H", "c1 12"]);
  const saidAt = (row, column, act) => {
    typing.place(row, column);
    told.length = 0;
    act();
    return told.includes("said");
  };
  assert.deepStrictEqual(["A", "X", "X"].map((letter, at) => saidAt(2, at + 1, () => typing.type(letter))), [false, true, false]);
  assert.strictEqual(rowOf(sheet, 2), "ABX");
  assert.deepStrictEqual([2, 3, 6].map((row) => saidAt(row, 1, () => press("Delete"))), [true, false, false]);
  // Row 5 has the lower half of the high letter.
  assert.deepStrictEqual([5, 4].map((row) => saidAt(row, 1, () => typing.type("K"))), [true, false]);
  // A stretch that goes on into protected cells.
  typing.place(1, 40);
  const kinds = [..."yzz"].map((letter) => {
    told.length = 0;
    typing.type(letter);
    return told.includes("said");
  });
  assert.deepStrictEqual(kinds, [false, true, true]);
});

asked("what is written under a larger sign comes up once that goes", () => {
  const { typing, sheet, said } = caretOf();
  sheet.add(["at 4 1", "c1 15", "text H", "c1 12"]);
  typing.place(5, 1);
  typing.type("XY");
  assert.deepStrictEqual(said.splice(0), [word("stays")]);
  typing.place(4, 1);
  typing.type("ab");
  assert.deepStrictEqual([rowOf(sheet, 4), rowOf(sheet, 5), said], ["ab", "XY", []]);
});

asked("in the last row of the format nothing is high, which is said", () => {
  const { typing, sheet, said, pen } = caretOf(["c1 15"]);
  const saidAt = (row) => {
    typing.place(row, 2 * row - 20);
    typing.type("H");
    return said.splice(0);
  };
  assert.deepStrictEqual([saidAt(23), saidAt(24)], [[], [word("flat")]]);
  sheet.add(["raw 1F2D4270"]);
  typing.leave();
  assert.deepStrictEqual([saidAt(19), saidAt(20)], [[], [word("flat")]]);
  pen.chosen = ["c1 14"];
  assert.deepStrictEqual(saidAt(20), []);
  // A marker of the serial set.
  typing.place(20, 5);
  typing.act(["serial", "c1 13"]);
  assert.deepStrictEqual(said, [word("flat")]);
});

asked("the caret stays in the format", () => {
  const { typing, sheet, press, place } = caretOf();
  press("PageDown");
  assert.deepStrictEqual(place(), [24, 1]);
  sheet.add(["raw 1F2D4270"]);
  typing.bound();
  assert.deepStrictEqual(place(), [20, 1]);
  press("ArrowDown", "End");
  assert.deepStrictEqual(place(), [20, 40]);
});

asked("a new line goes to the start of the next row, below what reaches into it", () => {
  const { typing, sheet, place } = caretOf();
  typing.type("A\nB");
  assert.deepStrictEqual([sheet.script(), place()], ["at 1 1\ntext A\nreturn\ndown\ntext B\n", [2, 2]]);
  const high = caretOf(["c1 13"]);
  high.typing.place(5, 1);
  high.typing.type("H");
  const [row] = high.place();
  high.typing.newLine();
  assert.ok(high.place()[0] > row && !high.typing.isCovered());
  assert.strictEqual(high.place()[1], 1);
});

asked("a text of several lines is one action, which one undo takes back", () => {
  const { typing, sheet, press, place } = caretOf();
  typing.type("vorher");
  typing.place(3, 1);
  typing.type("A\n\u00fc\nC");
  press("Backspace");
  assert.strictEqual(sheet.script(), "at 1 1\ntext vorher\n\nat 3 1\ntext A\nreturn\ndown\n# \u00fc\nraw 0F194875\nreturn\ndown\n");
  typing.type("D");
  assert.deepStrictEqual([[3, 4, 5].map((row) => rowOf(sheet, row)), place()], [["A", "u", "D"], [5, 2]]);
  sheet.undoRedo("undo");
  assert.deepStrictEqual([rowOf(sheet, 3), rowOf(sheet, 5)], ["A", ""]);
  sheet.undoRedo("undo");
  assert.deepStrictEqual([rowOf(sheet, 1), rowOf(sheet, 3)], ["vorher", ""]);
});

asked("arrow keys move the caret within the screen", () => {
  const { press, place, told } = caretOf();
  press("ArrowUp", "ArrowLeft");
  assert.deepStrictEqual(place(), [1, 1]);
  press("ArrowDown", "ArrowRight", "End", "PageDown", "ArrowRight", "ArrowDown");
  assert.deepStrictEqual(place(), [24, 40]);
  press("Home", "PageUp");
  assert.deepStrictEqual(place(), [1, 1]);
  assert.deepStrictEqual([...new Set(told)], ["moved", "arrived"]);
});

asked("what is being composed is replaced until it is done", () => {
  const { typing, sheet } = caretOf();
  typing.type("a");
  for (const text of ["n", "ni", "nî"]) typing.compose(text);
  assert.strictEqual(sheet.lines[1], "# anî");
  typing.compose("");
  typing.type("no");
  assert.strictEqual(sheet.script(), "at 1 1\ntext ano\n");
});

asked("signs that no set has are told, and others of the same text are written", () => {
  const { typing, sheet, told } = caretOf();
  typing.type("a€b");
  assert.deepStrictEqual([sheet.script(), told], ["at 1 1\ntext ab\n", ["changed", "said"]]);
});

test("of signs that are left out is told how many they are, and each once", () => {
  assert.strictEqual(leftOut(["€"]), word("noSign", { sign: "€" }));
  assert.strictEqual(leftOut(["€", "\u200b", "€"]), word("noSigns", { count: 3, signs: "€ U+200B" }));
  const many = Array.from({ length: 50 }, (_, at) => String.fromCodePoint(0x4e00 + at));
  assert.strictEqual(leftOut(many), word("noSigns", { count: 50, signs: `${many.slice(0, 40).join(" ")} …` }));
});

test("a tab is spaces up to the next of the columns 9, 17 and so on", () => {
  assert.strictEqual(spread("a\tb\t\tc", 1, 1).join(""), "a       b               c");
  assert.strictEqual(spread("\ta", 8, 1).join(""), " a");
  assert.strictEqual(spread("ä€\tb", 5, 1).join(""), "ä€   b");
});

test("of wide signs half as many are a tab, and one more where none ends at its column", () => {
  assert.strictEqual(spread("a\tb\t\tc", 1, 2).join(""), "a   b       c");
  // From columns 2 to 10, and from 12 to 18; from 34 to the first column of the next row, which column 41 would be past.
  assert.strictEqual(spread("\ta\tb", 2, 2).join(""), "    a   b");
  assert.strictEqual(spread("\ta\tb", 34, 2).join(""), "    a   b");
});

asked("a tab leads to its column under a wide pen too", () => {
  for (const [line, column] of [["c1 14", 11], ["c1 15", 11], ["c1 13", 10]]) {
    const { typing, place } = caretOf([line]);
    typing.type("a\tb");
    assert.deepStrictEqual(place(), [1, column]);
  }
});

asked("signs of word processors that no set has are replaced, which is said but of spaces", () => {
  const { typing, sheet, said } = caretOf();
  typing.type("10\u00a0DM\u202f\u2013 \u201eso\u201c \u2026");
  const signs = '\u2013 \u2192 -, \u201e \u2192 ", \u201c \u2192 ", \u2026 \u2192 ...';
  assert.deepStrictEqual([rowOf(sheet, 1), said.splice(0)], ['10 DM - "so" ...', [word("replaced", { signs })]]);
  // Those that a set has stay, and a space by itself is no remark.
  typing.place(2, 1);
  typing.type("\u201cso\u201d\u00a0");
  assert.deepStrictEqual([sheet.lines.at(-1), said], [linesOfSigns(knownSigns("\u201cso\u201d ")).at(-1), []]);
});

asked("of a text all signs are told once that were left out of its lines, and its tabs are spaces", () => {
  const { typing, sheet, said } = caretOf();
  typing.type("a€\n中\tb€\nc");
  assert.deepStrictEqual([1, 2, 3].map((row) => rowOf(sheet, row)), ["a", "        b", "c"]);
  assert.deepStrictEqual(said, [word("noSigns", { count: 3, signs: "€ 中" })]);
});

asked("past the last row it goes on in the first one, which is said", () => {
  const { typing, sheet, said, press, place } = caretOf();
  typing.place(24, 39);
  for (const letter of "ab") typing.type(letter);
  assert.deepStrictEqual([place(), said.splice(0)], [[1, 1], [word("pastEnd", { row: 1 })]]);
  typing.type("c");
  assert.deepStrictEqual([rowOf(sheet, 1), said], ["c", []]);
  typing.place(24, 7);
  press("Enter");
  assert.deepStrictEqual([place(), said.splice(0)], [[1, 1], [word("pastEnd", { row: 1 })]]);
  // Back from there nothing is said, nor where an area scrolls.
  typing.place(2, 1);
  press("Backspace");
  sheet.add(["area 5 24", "implicit", "at 24 40"]);
  typing.leave();
  typing.place(24, 40);
  typing.type("xy");
  assert.deepStrictEqual(said, []);
});

asked("what is pasted over all rows goes on in the first one too, which is said", () => {
  const pasted = (count, script, pen = []) => {
    const { typing, sheet, said, place } = caretOf(pen);
    sheet.setScript(script);
    typing.place(2, 1);
    typing.type("x".repeat(count));
    return [...place(), ...said];
  };
  // 23 rows of 40 columns from the second on, and of 20 rows 19.
  assert.deepStrictEqual(pasted(919, ""), [24, 40]);
  assert.deepStrictEqual(pasted(921, ""), [1, 2, word("pastEnd")]);
  assert.deepStrictEqual(pasted(965, ""), [2, 6, word("pastEnd")]);
  assert.deepStrictEqual(pasted(765, "raw 1F2D4270\n"), [1, 6, word("pastEnd")]);
  assert.deepStrictEqual(pasted(805, "raw 1F2D4270\n"), [2, 6, word("pastEnd")]);
  assert.deepStrictEqual(pasted(485, "", ["c1 14"]), [2, 11, word("pastEnd")]);
  // Neither where an area scrolls, nor without wrap; below an area it does.
  assert.deepStrictEqual(pasted(965, "area 5 24\nimplicit\n"), [24, 6]);
  assert.deepStrictEqual(pasted(965, "raw 1F2D4171\n"), [2, 40]);
  assert.deepStrictEqual(pasted(965, "area 1 1\nimplicit\n").slice(2), [word("pastEnd")]);
});

asked("of a text with more edits than can be undone that is said", () => {
  const { typing, sheet, said } = caretOf();
  typing.type(new Array(23).fill("Zeile").join("\n"));
  assert.deepStrictEqual([sheet.kept().length, said.splice(0)], [68, [word("manyEdits", { count: 68 })]]);
  typing.place(1, 1);
  typing.type("eins\nzwei");
  assert.deepStrictEqual(said, []);
});

asked("mosaics and letters stand in lines of their own", () => {
  const { typing, sheet } = caretOf();
  const mosaic = { set: "M", code: 0x35, accent: 0 };
  typing.type("A");
  typing.write([mosaic]);
  typing.write([mosaic]);
  assert.strictEqual(sheet.script(), "at 1 1\ntext A\n\nraw 0E35350F\n");
});

asked("nothing is written while a line of the script is wrong", () => {
  const { typing, sheet, told } = caretOf([], () => false);
  typing.type("A");
  typing.newLine();
  typing.wipe(1, 1);
  typing.act(["protect"]);
  assert.deepStrictEqual([sheet.script(), told], ["", []]);
});

asked("a marker stands at the caret, which goes on behind it", () => {
  const { typing, sheet, place } = caretOf();
  typing.act(["serial", "c1 1"]);
  assert.deepStrictEqual([sheet.script(), place()], ["at 1 1\nserial\nc1 1\n", [1, 2]]);
});
