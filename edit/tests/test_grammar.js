// What is wrong with a line, by its own words. Which lines are refused, and for what reason, the program says.
import assert from "node:assert";
import { test } from "node:test";
import { asked, asker, sheetOf } from "./program.js";
import { GRAMMAR, isDrawing, nearest, whyBad, wrongIn } from "../grammar.js";
import { word } from "../words.js";

const GOOD = [
  "at 1 40", " at\t24  1 ", "text ö", "text  ", "c1 31", "row 0", "screen 11", "table 3", "colour 31 15 0 15", "repeat 63", "area 3 3", "noarea 1 24",
  "revision 2", "raw 1f2F44", "undo", "scrollup", "text \u212a\u037e\u1fef",
];
// Bad lines, each with the program's reason and what is wrong with it.
const BAD = [
  ["frob 1", "UnknownWord", ["noWord", { name: "frob" }]],
  ["txt a", "UnknownWord", ["noWordNear", { name: "txt", near: "text" }]],
  ["rev 1", "UnknownWord", ["noWordNear", { name: "rev", near: "revision" }]],
  ["constructor", "UnknownWord", ["noWord", { name: "constructor" }]],
  ["line 1 1 9 9", "UnknownWord", ["wordOfDrawings", { name: "line" }]],
  ["at 1", "WrongCount", ["otherCount", { name: "at", count: 2, names: "ROW COLUMN", found: word("foundOne") }]],
  ["c1", "WrongCount", ["otherCountOne", { name: "c1", names: "N", found: word("foundNone") }]],
  ["raw 1F 2F", "WrongCount", ["otherCountOne", { name: "raw", names: "DIGITS", found: word("foundMore", { found: 2 }) }]],
  ["undo 1", "WrongCount", ["otherCountNone", { name: "undo", found: word("foundOne") }]],
  ["text", "WrongCount", ["noText", {}]],
  ["at 25 x", "BadNumber", ["otherNumber", { name: "ROW", value: 25, range: "1 bis 24" }], ["noNumber", { name: "COLUMN", value: "x", range: "1 bis 40" }]],
  ["c1 27", "BadNumber", ["otherNumber", { name: "N", value: 27, range: "0 bis 31, aber nicht 27" }]],
  ["screen 14", "BadNumber", ["otherNumber", { name: "N", value: 14, range: "0 bis 31, aber nicht 12 bis 15 und nicht 27" }]],
  ["revision 3", "BadNumber", ["otherNumber", { name: "N", value: 3, range: "1 oder 2" }]],
  ["area 9 8", "BadNumber", ["otherOrder", { a: 9, b: 8 }]],
  ["  text a€", "BadText", ["badSign", { sign: "€", place: 9 }]],
  ["text a\u2026", "BadText", ["badSignPlainer", { sign: "\u2026", place: 7, by: "..." }]],
  ["text \u200bx", "BadText", ["badSign", { sign: "U+200B", place: 6 }]],
  [" raw 1G", "BadHex", ["noDigit", { sign: "G", place: 7 }]],
  ["raw 1F2\u00a0 ", "BadHex", ["noDigit", { sign: "U+00A0", place: 8 }]],
  ["text a\tb", "BadText", ["badSign", { sign: word("tabSign"), place: 7 }]],
  ["raw 1", "BadHex", ["oddDigits", { count: 1 }]],
];

test("the nearest word begins so, or has few other letters", () => {
  const known = [...GRAMMAR.script.keys()];
  const wanted = { txet: "text", color: "colour", scroll: "scrollup", RAW: "raw", x: null, frobnicate: null, prot: "protect", reutrn: "return" };
  for (const [one, near] of Object.entries(wanted)) assert.strictEqual(nearest(one, known), near, one);
});

test("a bad line is told with what it takes, and of a good one nothing is", () => {
  for (const line of GOOD) assert.strictEqual(wrongIn(line, "script"), "", line);
  for (const [line, , ...said] of BAD) assert.strictEqual(wrongIn(line, "script"), said.map((one) => word(...one)).join("; "), line);
  assert.strictEqual(wrongIn("box 1 1 80 1", "drawing"), word("otherNumber", { name: "X", value: 80, range: "0 bis 79" }));
  assert.strictEqual(wrongIn("text a", "drawing"), word("wordOfScripts", { name: "text" }));
});

asked("the program refuses the same lines for these reasons", () => {
  for (const line of GOOD) assert.strictEqual(sheetOf(undefined, `${line}\n`).fault, null, line);
  for (const [line, reason] of BAD) assert.strictEqual(sheetOf(undefined, `${line}\n`).fault.name, reason, line);
});

asked("of bytes the items are told that the program refuses", () => {
  const items = ["01", "1C"].map((item) => word("badItem", { item, number: 1, name: "UnassignedControl" }));
  assert.strictEqual(whyBad({ name: "BadBytes" }, "raw 41011C", "script", (page) => asker().check(page)), items.join("; "));
});

test("a text is a drawing by its first word", () => {
  const drawings = ["box 1 1 2 2", "# at 1 1\n\n \tplot 1 1\nat 1 1", "  # x\nwipe"];
  const others = ["", "# plot 1 1", "at 1 1\nplot 1 1", "text plot", "plots 1 1", "plot# 1 1"];
  assert.deepStrictEqual([...drawings, ...others].map(isDrawing), [...drawings.map(() => true), ...others.map(() => false)]);
});
