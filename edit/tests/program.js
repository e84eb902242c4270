// The program as the editor asks it, for tests over it: the module that is named on the command line. Without one these are left out.
import { readFileSync } from "node:fs";
import { test } from "node:test";
import "./scripts.js";
import { Asker } from "../ask.js";
import { Sheet } from "../sheet.js";
import { run } from "../shared.js";

const path = process.argv[2];
const module = path ? new WebAssembly.Module(readFileSync(path)) : null;

export const asked = (name, act) => test(name, { skip: module ? false : "there is no module" }, act);
export const asker = () => new Asker(module, run);
export const bytes = (...numbers) => Uint8Array.from(numbers);

// A sheet with a stored page and a script.
export function sheetOf(page = bytes(), script = "") {
  const sheet = new Sheet(asker());
  sheet.open(page, script);
  return sheet;
}

// What stands in a row of a screen, the blanks of its end left out.
export function rowOf(sheet, row) {
  const grid = sheet.making.end().subarray(40 * (row - 1), 40 * row);
  const looks = Array.from(grid, (number) => sheet.known.list[number]);
  return looks.map((look) => (look.kind === "sign" ? String.fromCharCode(look.code) : " ")).join("").trimEnd();
}
