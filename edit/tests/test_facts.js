// Facts that stand elsewhere too: in the header, the man page and docs/PROFILE.md.
import assert from "node:assert";
import { readFileSync, readdirSync } from "node:fs";
import { test } from "node:test";
import { asked, sheetOf } from "./program.js";
import { POINTS_TALL, POINTS_WIDE } from "../drawing.js";
import { REASONS } from "../live.js";
import { MARKERS, PEN, WHOLE, bytesOfLine } from "../lines.js";
import { KEPT } from "../sheet.js";
import { STATUS } from "../statuses.js";
import { TABLES } from "../words.js";

const textOf = (path) => readFileSync(new URL(`../../${path}`, import.meta.url), "utf8");
const MANUAL = textOf("docs/cept_tool.1");

// All of the editor's modules but the one that begins, and that of what the viewer gives.
const MODULES = readdirSync(new URL("../", import.meta.url)).filter((name) => name.endsWith(".js") && !["editor.js", "shared.js"].includes(name));

test("no module takes a name that the viewer's scripts have", async () => {
  const taken = Object.keys(await import("../shared.js"));
  assert.ok(taken.includes("readTrace") && MODULES.length > 10);
  for (const name of MODULES) {
    const exported = Object.keys(await import(`../${name}`));
    assert.deepStrictEqual(exported.filter((one) => taken.includes(one)), [], name);
  }
});

test("statuses are those of the header", () => {
  const [, list] = /enum \{\s*(TAMLIGUB_DONE[^}]*)\}/.exec(textOf("library/tamligub.h"));
  const found = [...list.matchAll(/TAMLIGUB_(\w+) = (\d+)/g)].map(([, name, number]) => [name, Number(number)]);
  assert.deepStrictEqual(Object.entries(STATUS), found);
});

test("each reason for which a line is refused has words, and no other", () => {
  const names = [...MANUAL.matchAll(/^\d\|([A-Z][A-Za-z]+)\|/gm)].map((found) => found[1]);
  const numbered = names.slice(names.indexOf("UnknownWord"), names.indexOf("BadBytes") + 1);
  assert.deepStrictEqual(REASONS, numbered);
  const reasons = numbered.slice().sort();
  assert.strictEqual(reasons.length, 6);
  for (const table of Object.values(TABLES)) assert.deepStrictEqual(Object.keys(table).filter((key) => /^[A-Z]/.test(key)).sort(), reasons);
});

test("the longest page and the longest script are told as they are", () => {
  assert.ok(MANUAL.includes("2\\(ha24 bytes") && MANUAL.includes("2\\(ha20 bytes"));
  for (const [language, table] of Object.entries(TABLES)) {
    for (const most of [2 ** 24, 2 ** 20]) assert.ok(table.ended7.includes(most.toLocaleString(language)), `${language}: ${table.ended7}`);
    assert.ok(table.drawTooLong.includes((2 ** 20).toLocaleString(language)), table.drawTooLong);
  }
});

test("how many edits can be undone is told as it is", () => {
  assert.ok(MANUAL.includes(`the last ${KEPT} can be undone`));
  for (const table of Object.values(TABLES)) for (const key of ["undoEnds", "manyEdits"]) assert.ok(table[key].includes(String(KEPT)), table[key]);
});

test("the points of a drawing are two by three in a cell", () => {
  assert.ok(MANUAL.includes(`X is 0 to ${POINTS_WIDE - 1} from the left`) && MANUAL.includes(`\n${POINTS_TALL - 1} from the top`));
});

// What the look of a sign has under an attribute, by the tables of pens and flash modes of docs/PROFILE.md.
const LOOKS = {
  high: { high: 2 }, wide: { wide: 2 }, both: { high: 2, wide: 2 }, flash: { flash: "F" }, inverted: { flash: "I" }, reduced: { flash: "R" },
  fast1: { flash: "1" }, fast2: { flash: "2" }, fast3: { flash: "3" }, next: { flash: "1" }, previous: { flash: "3" },
  lined: { lined: true }, boxed: { boxed: true }, conceal: { concealed: true }, invert: { fore: "000", back: "FFF" }, transparent: { back: "F00" },
};

function partsOf(look, wanted) {
  return Object.fromEntries(Object.keys(wanted).map((key) => [key, look[key]]));
}

asked("each choice of the pen has the look of its name", () => {
  const choices = { ...PEN.size, ...PEN.flash, ...PEN.switches };
  const named = Object.keys(choices).filter((key) => choices[key] !== null);
  assert.deepStrictEqual(named.sort(), Object.keys(LOOKS).sort());
  for (const name of named) {
    // A row with a red ground, and a pen with a blue one, which the last choice unsets.
    const ground = name === "transparent" ? "row 17\nc1 20\n" : "";
    const sheet = sheetOf(undefined, `at 3 1\n${ground}${choices[name]}\ntext A\n`);
    // What is high reaches into the row above or below: there its sign is seen too.
    const looks = [...new Set(sheet.making.end())].map((number) => sheet.known.list[number]).filter(({ kind }) => kind === "sign");
    for (const look of looks) assert.deepStrictEqual(partsOf(look, LOOKS[name]), LOOKS[name], name);
    assert.ok(looks.length > 0, name);
  }
});

test("the same name is the same code for pen, marker, row and screen", () => {
  const pens = { ...PEN.size, ...PEN.flash, ...PEN.switches };
  for (const [name, line] of Object.entries(MARKERS)) if (pens[name] && name in pens) assert.strictEqual(line, pens[name], name);
  for (const [name, number] of Object.entries(WHOLE)) {
    const line = pens[name] || MARKERS[name];
    // 9/15 ends concealing of a row as of a pen, and 9/12 inverting; under the serial set these codes mean something else.
    const code = { revealed: 0x9f, positive: 0x9c }[name] || bytesOfLine(line)[0];
    assert.strictEqual(0x80 + number, code, name);
  }
});
