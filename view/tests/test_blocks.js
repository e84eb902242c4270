// No block of the viewer's modules runs more often than there are signs to read, lines to go through, or cells to show.
import assert from "node:assert";
import { test } from "node:test";
import { isWithin, most } from "./counted.js";
import { Film, textOfRows } from "../film.js";
import { CELLS, readChanges } from "../text.js";

const LINES = 50000;

// A page whose every byte changes a cell, with as many looks as it has signs and colours.
function textOf(lines) {
  const inks = ["FFF", "F00", "0F0", "FF0", "00F", "F0F", "0FF"];
  const line = (n) => {
    const code = (0x21 + ((n * 7) % 0x5d)).toString(16).toUpperCase();
    return `${n} ${1 + (Math.floor(n / 40) % 24)} ${1 + (n % 40)} P${code} 11.00 ${inks[Math.floor(n / 960) % 7]} 000 S---\n`;
  };
  return Array.from({ length: lines }, (_, n) => line(n)).join("");
}

const text = textOf(LINES);
const reading = most(() => readChanges(text));
const filming = most(() => new Film(reading.made, null));
const film = filming.made;

test("a text is read sign by sign at most", () => {
  assert.strictEqual(reading.made.count, LINES);
  isWithin(reading, text.length, "readChanges");
  // Each line is read, or nothing was counted.
  assert.ok(reading.count >= LINES, `only ${reading.count} were counted`);
});

test("each look is read once", () => {
  const looks = new Set(text.split("\n").slice(0, -1).map((line) => line.split(" ").slice(3).join(" ")));
  assert.strictEqual(reading.made.looks.length, looks.size + 1);
});

test("a film goes through its lines once, and to its end too", () => {
  isWithin(filming, LINES, "Film");
  isWithin(most(() => film.go(LINES)), LINES, "go to the end");
  isWithin(most(() => film.go(0)), LINES, "go to the start");
});

test("a step goes through the lines of its moment alone, and no moment is sought one by one", () => {
  film.go(LINES);
  // Its one line, and what is asked of the moment where it begins and of that where it ends.
  isWithin(most(() => film.go(LINES - 1)), 2, "a step back");
  isWithin(most(() => film.go(LINES)), 2, "a step forward");
  const halvings = Math.ceil(Math.log2(LINES)) + 1;
  isWithin(most(() => film.momentsWithin(LINES / 3)), halvings, "momentsWithin");
  isWithin(most(() => film.momentOf(LINES / 3)), halvings, "momentOf");
});

test("the text of the screen is made cell by cell", () => {
  isWithin(most(() => textOfRows({ looks: film.changes.looks, grid: film.grid }, false)), CELLS, "text");
});
