// How the program is asked, over one that stands in for it; and what a drawing and a pen make of its answers.
import assert from "node:assert";
import { test } from "node:test";
import "./scripts.js";
import { Asker, bytesOf, textOf } from "../ask.js";
import { AskFault, BadLine } from "../faults.js";
import { figureOf, lineOf, linesBelow } from "../drawing.js";
import * as shared from "../shared.js";

const { CELLS } = shared;
const USAGE = { status: 2, text: bytesOf("usage") };
// An asker over a program that answers words as they are given here, and what it was called with.
function over(answers) {
  const calls = [];
  const asker = new Asker(null, (_, word, things) => {
    calls.push({ word, script: textOf(things.script || bytesOf("")), number: things.number });
    const answer = answers[word] || USAGE;
    return answer instanceof Function ? answer() : answer;
  });
  return { asker, calls: () => calls.slice(1) };
}
const put = (text, status = 0) => ({ status, text: bytesOf(text) });
const page = new Uint8Array();

test("all that the editor takes of the viewer's scripts is there", () => {
  for (const [name, value] of Object.entries(shared)) assert.notStrictEqual(value, undefined, name);
});

test("whether the program can draw is asked once, at the start", () => {
  assert.strictEqual(over({}).asker.canPlot, false);
  assert.strictEqual(over({ plot: put("") }).asker.canPlot, true);
});

test("statuses 0 and 1 are answers, 3 is a bad line, and the others have none", () => {
  assert.deepStrictEqual(over({ edit: put("A", 1) }).asker.edit(page, ""), bytesOf("A"));
  const bad = over({ edit: put("script line 12: 3 BadNumber\n", 3) }).asker;
  assert.throws(() => bad.edit(page, ""), (fault) => fault instanceof BadLine && fault.line === 12 && fault.number === 3 && fault.name === "BadNumber");
  for (const status of [2, 4, 5, 6, 7]) {
    assert.throws(() => over({ edit: put("", status) }).asker.edit(page, ""), (fault) => fault instanceof AskFault && fault.status === status);
  }
  const full = () => { throw new RangeError("memory"); };
  assert.throws(() => over({ edit: full }).asker.edit(page, ""), (fault) => fault instanceof AskFault && fault.status === 6);
});

const look = (letter) => `P${letter.charCodeAt(0).toString(16).toUpperCase()} 11.00 FFF 000 S---`;

test("of lines on a page the last look that each changes is told", () => {
  const { asker, calls } = over({ trace: put(`1 1 1 ${look("B")}\n1 1 2 ${look("C")}\n3 1 1 ${look("D")}\n`) });
  const looks = asker.lastLooks(page, ["one", "two", "three"]);
  assert.deepStrictEqual(looks.map((one) => one && String.fromCharCode(one.code)), ["C", null, "D"]);
  assert.strictEqual(calls()[0].script, "one\ntwo\nthree\n");
});

test("flash is asked for each phase and the first again", () => {
  const { asker, calls } = over({ flash: put("") });
  asker.flash(page);
  assert.strictEqual(calls()[0].number, 6);
});

test("a figure is a line of a drawing", () => {
  const [from, to] = [{ x: 1, y: 2 }, { x: 79, y: 71 }];
  const lines = ["point", "unplot", "line", "box", "wipe"].map((tool) => figureOf(tool, from, to));
  assert.deepStrictEqual(lines, ["plot 79 71", "unplot 79 71", "line 1 2 79 71", "box 1 2 79 71", "wipe 1 2 79 71"]);
});

test("mosaics of a drawing are one line: a place and the pen where they don't follow, and no scrolling meanwhile", () => {
  const mosaics = [{ cell: 0, code: 0x21 }, { cell: 1, code: null }, { cell: 39, code: 0x7f }, { cell: 40, code: 0x22 }];
  const begun = "1F2F449B3360";
  const first = "1F4141" + "81" + "0E210F" + "20";
  const second = "1F4168" + "81" + "0E7F0F" + "1F4241" + "81" + "0E220F";
  assert.strictEqual(lineOf(mosaics, [0x81], false), `raw ${begun}${first}${second}`);
  assert.strictEqual(lineOf(mosaics, [0x81], true), `raw ${begun}${first}${second}9B3260`);
  assert.strictEqual(lineOf([], [0x81], true), null);
  assert.strictEqual(lineOf([{ cell: CELLS - 1, code: 0x21 }], [], false), `raw ${begun}1F58680E210F`);
});

test("lines of a drawing that have a point below the format are told by their numbers", () => {
  const lines = ["plot 70 59", "plot 0 60", "# 1 99", "box 1 71 2 3", "line 61 2 79 60", "wipe 70 0 71 59"];
  assert.deepStrictEqual([linesBelow(lines, 60), linesBelow(lines, 72)], [[2, 4, 5], []]);
});
