// The state of the editor, over the program: what stands in the script is reckoned, and what it shows is what the whole script shows.
import assert from "node:assert";
import { test } from "node:test";
import { asked, asker, bytes, rowOf, sheetOf } from "./program.js";
import { lastGrid, readTrace } from "../shared.js";
import { KEPT, asLines } from "../sheet.js";

const PAGE = bytes(0x1f, 0x45, 0x41, ...Array.from("Seite", (sign) => sign.charCodeAt(0)));
const START = "raw 1F2F44";
const placeOf = ({ at }) => [Math.floor(at / 40) + 1, (at % 40) + 1];

// The bytes and the screen are those of the stored page and the whole script.
function isTrue(sheet) {
  assert.deepStrictEqual(sheet.edited(), asker().edit(sheet.page, sheet.script()));
  const grid = lastGrid(readTrace(asker().changes(sheet.edited()), sheet.known));
  assert.deepStrictEqual(sheet.making.end(), grid);
}

asked("an action is a paragraph, and the program says where it would go on", () => {
  const sheet = sheetOf();
  assert.strictEqual(sheet.add(["at 3 5", "text Hallo"]), 0);
  assert.deepStrictEqual(placeOf(sheet), [3, 10]);
  assert.strictEqual(sheet.add(["text Welt"]), 3);
  assert.strictEqual(sheet.script(), "at 3 5\ntext Hallo\n\ntext Welt\n");
  assert.strictEqual(rowOf(sheet, 3), "    HalloWelt");
  assert.deepStrictEqual(sheet.kept(), [0, 1, 3]);
  isTrue(sheet);
});

asked("on a page that was there the first action begins with control as at the start", () => {
  const sheet = sheetOf(PAGE);
  sheet.add(["at 1 1", "text A"]);
  sheet.add(["text B"]);
  assert.strictEqual(sheet.script(), `${START}\nat 1 1\ntext A\n\ntext B\n`);
  assert.deepStrictEqual([rowOf(sheet, 1), rowOf(sheet, 5)], ["AB", "Seite"]);
  isTrue(sheet);
});

asked("one undo takes a whole action back, and one redo makes it again", () => {
  const sheet = sheetOf();
  sheet.add(["at 1 1", "text A"]);
  sheet.add(["at 2 1", "c1 1", "text B"]);
  assert.ok(sheet.undoRedo("undo"));
  assert.deepStrictEqual(sheet.lines.slice(6), ["", "undo", "undo", "undo"]);
  assert.deepStrictEqual([rowOf(sheet, 1), rowOf(sheet, 2), sheet.kept()], ["A", "", [0, 1]]);
  isTrue(sheet);
  assert.ok(sheet.undoRedo("redo"));
  assert.deepStrictEqual(sheet.lines.slice(10), ["", "redo", "redo", "redo"]);
  assert.deepStrictEqual([rowOf(sheet, 2), sheet.kept()], ["B", [0, 1, 3, 4, 5]]);
  isTrue(sheet);
  assert.ok(sheet.undoRedo("undo") && sheet.undoRedo("undo"));
  const before = sheet.script();
  assert.strictEqual(sheet.undoRedo("undo"), false);
  assert.deepStrictEqual([sheet.script(), sheet.kept(), rowOf(sheet, 1)], [before, [], ""]);
});

asked("where the action began that would be undone is said by its first line, and by no other", () => {
  const sheet = sheetOf(PAGE);
  assert.strictEqual(sheet.beginning(), null);
  sheet.add(["parallel", "at 3 4", "c1 1", "text A"]);
  sheet.add(["text B", "at 9 9", "text C"]);
  assert.strictEqual(sheet.beginning(), null);
  sheet.undoRedo("undo");
  assert.deepStrictEqual(sheet.beginning(), [3, 4]);
});

asked("after another action nothing is redone", () => {
  const sheet = sheetOf();
  sheet.add(["text A"]);
  sheet.undoRedo("undo");
  sheet.add(["text B"]);
  const [script, before] = [sheet.script(), sheet.making.count];
  assert.strictEqual(sheet.undoRedo("redo"), false);
  assert.strictEqual(sheet.script(), script);
  assert.strictEqual(sheet.making.count, before, "a line is made");
});

asked("tidying leaves out what was undone, with what the editor noted on it; a maker's comments and the page stay", () => {
  const sheet = sheetOf();
  sheet.add(["# kept", "at 1 1", "text A"]);
  sheet.add(["# of a maker", "at 2 1", "# fü", "raw 0F66194875"]);
  sheet.undoRedo("undo");
  sheet.add(["# line 0 0 3 3; plot 5 5", "raw 1F2F44"]);
  sheet.undoRedo("undo");
  sheet.add(["at 3 1", "text C"]);
  const page = sheet.edited();
  assert.ok(sheet.tidy());
  assert.strictEqual(sheet.script(), "# kept\nat 1 1\ntext A\n\n# of a maker\n\nat 3 1\ntext C\n");
  assert.deepStrictEqual(sheet.edited(), page);
});

asked("a bad line is told with its number, and the lines before it are shown", () => {
  const sheet = sheetOf();
  sheet.setScript("at 1 1\ntext A\nat 25 1\ntext B\nnonsense\n");
  assert.deepStrictEqual([sheet.fault.line, sheet.fault.name, sheet.good.length], [3, "BadNumber", 2]);
  assert.strictEqual(rowOf(sheet, 1), "A");
  sheet.setScript("at 1 1\ntext A\n");
  assert.strictEqual(sheet.fault, null);
});

asked("the set and the table in force are asked of the page under way", () => {
  const sheet = sheetOf();
  const { set, table } = sheet.inForce();
  assert.deepStrictEqual([set, table], ["parallel", "table 0"]);
  sheet.add(["table 2", "text A"]);
  sheet.add(["table 3", "serial"]);
  assert.deepStrictEqual([sheet.inForce().set, sheet.inForce().table], ["serial", "table 3"]);
  sheet.undoRedo("undo");
  assert.deepStrictEqual([sheet.inForce().set, sheet.inForce().table], ["parallel", "table 2"]);
  // Before an action that begins by setting control back neither is said to be in force.
  const other = sheetOf(PAGE);
  assert.deepStrictEqual(other.inForce(), { set: null, table: null });
  other.add(["text A"]);
  assert.deepStrictEqual([other.inForce().set, other.inForce().table], ["parallel", "table 0"]);
});

asked("other lines take the place of the last ones", () => {
  const sheet = sheetOf();
  const from = sheet.add(["at 1 1", "text A"]);
  sheet.change(from, ["at 1 1", "text AB"]);
  assert.deepStrictEqual([sheet.lines, rowOf(sheet, 1)], [["at 1 1", "text AB"], "AB"]);
});

asked("undo goes as far as the program keeps edits, and lines of a long script stay", () => {
  const sheet = sheetOf();
  // Two edits each; the last 64 edits are kept, so those of 32 actions.
  for (let at = 0; at < 40; at++) sheet.add([`at ${1 + (at % 24)} 1`, `text Zeile ${at}`]);
  let count = 0;
  while (sheet.undoRedo("undo")) count++;
  assert.deepStrictEqual([count, sheet.kept().length, rowOf(sheet, 8)], [32, 16, "Zeile 7"]);
  assert.deepStrictEqual(sheet.reach("undo"), { count: 2, most: 0 });
  isTrue(sheet);
  for (; count > 0; count--) assert.ok(sheet.undoRedo("redo"));
  assert.strictEqual(sheet.undoRedo("redo"), false);
  assert.deepStrictEqual([sheet.kept().length, rowOf(sheet, 16)], [80, "Zeile 39"]);
  isTrue(sheet);
});

asked("of an action with more edits than the program keeps the last ones are undone", () => {
  const sheet = sheetOf();
  assert.deepStrictEqual([sheet.reach("undo"), sheet.reach("redo")], [{ count: 0, most: 0 }, { count: 0, most: 0 }]);
  sheet.add(Array.from({ length: KEPT + 6 }, (_, at) => `text ${at % 10}`));
  assert.deepStrictEqual(sheet.reach("undo"), { count: 70, most: 64 });
  assert.ok(sheet.undoRedo("undo"));
  assert.deepStrictEqual([rowOf(sheet, 1), sheet.reach("undo"), sheet.reach("redo")], ["012345", { count: 6, most: 0 }, { count: 64, most: 64 }]);
  isTrue(sheet);
});

asked("a script that was tidied is taken back, and what was undone in it can be redone", () => {
  const sheet = sheetOf();
  sheet.add(["at 1 1", "text A"]);
  sheet.add(["at 2 1", "text B"]);
  sheet.undoRedo("undo");
  const script = sheet.script();
  assert.ok(sheet.tidy());
  sheet.setScript(script);
  assert.ok(sheet.undoRedo("redo"));
  assert.strictEqual(rowOf(sheet, 2), "B");
  isTrue(sheet);
});

asked("what was taken out of the script can't be redone, and what was undone before it can", () => {
  const sheet = sheetOf();
  sheet.add(["at 1 1", "text A"]);
  sheet.add(["at 2 1", "text B"]);
  sheet.undoRedo("undo");
  const before = sheet.lines.length;
  sheet.add(["at 3 1", "text C"]);
  sheet.change(before, []);
  assert.deepStrictEqual([rowOf(sheet, 1), rowOf(sheet, 2), rowOf(sheet, 3)], ["A", "", ""]);
  isTrue(sheet);
  assert.ok(sheet.undoRedo("redo"));
  assert.deepStrictEqual([rowOf(sheet, 1), rowOf(sheet, 2), rowOf(sheet, 3)], ["A", "B", ""]);
  isTrue(sheet);
});

asked("what edits were dropped for can be undone once these are gone", () => {
  const sheet = sheetOf();
  const lines = Array.from({ length: 70 }, (_, at) => `text ${at % 10}`);
  sheet.setScript(`${lines.join("\n")}\n`);
  // Ten edits more, which push ten others out, and are taken out again: 64 can be undone.
  sheet.add(Array(10).fill("text x"));
  sheet.change(70, []);
  sheet.add(Array(64).fill("undo"));
  assert.deepStrictEqual(sheet.making.nothings, []);
  isTrue(sheet);
  sheet.add(["undo"]);
  assert.deepStrictEqual(sheet.making.nothings, [sheet.lines.length]);
});

asked("undos that are taken out of the script are redone, and lines before them too", () => {
  const sheet = sheetOf();
  sheet.setScript("at 1 1\ntext A\nundo\nundo\nredo\ntext B\n");
  isTrue(sheet);
  sheet.setScript("at 1 1\ntext A\n");
  assert.strictEqual(rowOf(sheet, 1), "A");
  isTrue(sheet);
  sheet.setScript("at 1 1\ntext A\nundo\n");
  sheet.setScript("at 1 1\ntext A\nundo\nredo\n");
  sheet.setScript("at 1 1\ntext A\n");
  assert.deepStrictEqual([rowOf(sheet, 1), sheet.kept()], ["A", [0, 1]]);
  isTrue(sheet);
});

asked("a script in any form by hand shows what the whole shows", () => {
  const words = ["at 3 4", "text AB", "text ", "c1 1", "c1 13", "undo", "redo", "undo", "redo", "", "# note", "row 17", "clear", "return", "down", "repeat 5"];
  let seed = 7;
  const drawn = (most) => {
    seed = (Math.imul(seed, 1103515245) + 12345) >>> 0;
    return (seed >>> 16) % most;
  };
  const sheet = sheetOf(PAGE);
  let lines = [];
  for (let round = 0; round < 60; round++) {
    const from = drawn(3) ? lines.length - drawn(Math.min(8, lines.length + 1)) : drawn(lines.length + 1);
    const more = Array.from({ length: drawn(6) }, () => words[drawn(words.length)]);
    lines = [...lines.slice(0, from), ...more, ...(drawn(4) ? [] : lines.slice(from + 1))];
    sheet.setScript(lines.map((line) => `${line}\n`).join(""));
    const good = sheet.good.map((line) => `${line}\n`).join("");
    const page = asker().edit(sheet.page, good);
    assert.deepStrictEqual(sheet.making.end(), lastGrid(readTrace(asker().changes(page), sheet.known)), sheet.script());
    const nothings = readTrace(new TextDecoder().decode(asker().put("trace", { page: sheet.page, script: new TextEncoder().encode(good) })), sheet.known);
    assert.deepStrictEqual(sheet.making.nothings, nothings.nothings, sheet.script());
  }
});

asked("a script that is too long is refused, and the one before stays", () => {
  const sheet = sheetOf(bytes(), "text A\n");
  assert.throws(() => sheet.setScript("#".repeat(2 ** 20)), { status: 7 });
  assert.throws(() => sheet.setScript("ä".repeat(2 ** 19)), { status: 7 });
  assert.deepStrictEqual([sheet.script(), rowOf(sheet, 1)], ["text A\n", "A"]);
});

asked("a page whose script is too long isn't opened, with the line feed that its last line has in the sheet", () => {
  const sheet = sheetOf(PAGE, "text A\n");
  for (const script of ["#".repeat(2 ** 20), `${"#".repeat(2 ** 20)}\n`, "ä".repeat(2 ** 19)]) {
    assert.throws(() => sheet.open(bytes(0x42), script), { status: 7 });
    assert.deepStrictEqual([sheet.page, sheet.script(), sheet.lines], [PAGE, "text A\n", ["text A"]]);
    isTrue(sheet);
  }
  sheet.open(bytes(0x42), "#".repeat(2 ** 20 - 1));
  assert.deepStrictEqual([sheet.page, sheet.script().length], [bytes(0x42), 2 ** 20]);
});

test("a script has a line feed behind its last line too", () => {
  assert.deepStrictEqual(["", "\n", "text A", "text A\n", "text A\n\n"].map(asLines), ["", "\n", "text A\n", "text A\n", "text A\n\n"]);
});

asked("the entries of the inks of four-colour signs are those of the page under way", () => {
  const sheet = sheetOf();
  assert.deepStrictEqual(sheet.live.dclut(), [0, 1, 2, 3]);
  sheet.add(["raw 1F2620221F263030494A4B4C"]);
  assert.deepStrictEqual(sheet.live.dclut(), [9, 10, 11, 12]);
  sheet.undoRedo("undo");
  assert.deepStrictEqual(sheet.live.dclut(), [0, 1, 2, 3]);
});
