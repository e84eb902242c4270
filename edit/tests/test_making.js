// How a script makes its screen, of what each line did as it is written here; what is wanted is read off it.
import assert from "node:assert";
import { test } from "node:test";
import "./scripts.js";
import { Making } from "../making.js";
import { gutterOf, stepFrom } from "../script.js";
import { CELLS } from "../shared.js";

const [A, B, C, D] = [65, 66, 67, 68];
const step = (...pairs) => ({ cells: pairs.map(([cell]) => cell), numbers: pairs.map(([, number]) => number) });
// Line 1 writes A and B, line 2 is a note, line 3 writes C over A, line 4 undoes nothing, line 5 writes D.
const LINES = [["text AB", step([0, A], [1, B])], ["# note", null], ["text C", step([0, C])], ["undo", null], ["text D", step([40, D])]];

function made(lines = LINES) {
  const making = new Making(new Uint32Array(CELLS).fill(32));
  for (const [line, did] of lines) making.add(line, did);
  return making;
}
const signs = (grid) => [0, 1, 40].map((cell) => String.fromCharCode(grid[cell])).join("");

test("the cells of a line are those that it changes", () => {
  const making = made();
  assert.deepStrictEqual([0, 1, 2, 3, 4, 5, 6].map((number) => making.cellsOf(number)), [[], [0, 1], [], [0], [], [40], []]);
  assert.deepStrictEqual([making.nothings, making.count], [[4], 5]);
});

test("the screen after a line has what lines up to it wrote", () => {
  const making = made();
  assert.deepStrictEqual([0, 1, 2, 3, 4, 5].map((number) => signs(making.after(number))), ["   ", "AB ", "AB ", "CB ", "CB ", "CBD"]);
  assert.deepStrictEqual([signs(making.after(Infinity)), signs(making.end())], ["CBD", "CBD"]);
});

test("a cell was made by the last line that changed it", () => {
  const making = made();
  assert.deepStrictEqual([1, 2, 3, 5].map((number) => making.lineOf(0, number)), [1, 1, 3, 3]);
  assert.deepStrictEqual([making.lineOf(0, 0), making.lineOf(40, 4), making.lineOf(40, Infinity), making.lineOf(99, Infinity)], [0, 0, 5, 0]);
});

test("the last line is left out, and the screen is as before it", () => {
  const making = made();
  const screens = [5, 4, 3, 2, 1].map(() => {
    making.drop();
    return signs(making.end());
  });
  assert.deepStrictEqual(screens, ["CB ", "CB ", "AB ", "AB ", "   "]);
  assert.deepStrictEqual([making.nothings, making.count, making.last()], [[], 0, null]);
  making.add(...LINES[2]);
  assert.deepStrictEqual([signs(making.end()), making.last().before], ["C  ", [32]]);
});

test("edits are kept until they are undone, and can be redone until another comes", () => {
  const nothing = step();
  const lines = [["text A", nothing], ["text B", nothing], ["# note", null], ["text C", nothing], ["undo", nothing], ["undo", nothing]];
  assert.deepStrictEqual(made(lines).edits(), { kept: [0], undone: [3, 1] });
  const again = [...lines, ["redo", nothing]];
  assert.deepStrictEqual(made(again).edits(), { kept: [0, 1], undone: [3] });
  assert.deepStrictEqual(made([...again, ["text D", nothing], ["redo", null]]).edits(), { kept: [0, 1, 7], undone: [] });
});

test("beside the script stands how many cells each of its edits changed", () => {
  const lines = [...LINES.map(([line]) => line), "tex"];
  const rows = gutterOf({ lines, good: lines.slice(0, 5), making: made() }).split("\n");
  assert.deepStrictEqual(rows, ["1   2", "2    ", "3   1", "4    ", "5   1", "6    "]);
  // A line behind a bad one is shown by number alone.
  assert.strictEqual(gutterOf({ lines, good: lines.slice(0, 2), making: made() }).split("\n")[2], "3    ");
});

test("a step passes comments and empty lines", () => {
  const good = ["# note", "", "at 1 1", "text A", "", "at 2 1"];
  assert.deepStrictEqual([0, 3, 4, 5, 6].map((from) => stepFrom(from, 1, good)), [3, 4, 6, 6, 7]);
  assert.deepStrictEqual([6, 4, 3].map((from) => stepFrom(from, -1, good)), [4, 3, 0]);
});
