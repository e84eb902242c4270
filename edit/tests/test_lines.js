// The words of a script's lines. The bytes are those of docs/PROFILE.md.
import assert from "node:assert";
import { test } from "node:test";
import "./scripts.js";
import {
  MARKERS, PEN, bytesOfLine, bytesOfSigns, colourLines, coloursLine, dclutLine, formatLine, inGrammar, knownSigns, linesOfSigns, patternLine,
  raw, sameBytes, signOf, signsIn, tableLines, unknownIn,
} from "../lines.js";

const P = (code, accent = 0) => ({ set: "P", code, accent });

test("a typed letter is a sign with its accent, however it is composed", () => {
  assert.deepStrictEqual(signOf("A"), P(0x41));
  for (const text of ["ä", "a\u0308"]) assert.deepStrictEqual(signOf(text), P(0x61, 0x48));
  assert.deepStrictEqual(signOf("ß"), { set: "S", code: 0x7b, accent: 0 });
  assert.strictEqual(signOf("€"), null);
  assert.deepStrictEqual(signsIn("a\u0308b\u0301"), ["a\u0308", "b\u0301"]);
  assert.deepStrictEqual(knownSigns("A€B"), [P(0x41), P(0x42)]);
});

test("signs are bytes: an accent before its letter, and a stretch of mosaics between two locks", () => {
  assert.deepStrictEqual(bytesOfSigns([P(0x41), P(0x61, 0x48)]), [0x41, 0x19, 0x48, 0x61]);
  assert.deepStrictEqual(bytesOfSigns([{ set: "S", code: 0x7b, accent: 0 }]), [0x19, 0x7b]);
  const mosaic = (code) => ({ set: "M", code, accent: 0 });
  assert.deepStrictEqual(bytesOfSigns([mosaic(0x21), mosaic(0x7f), P(0x41), mosaic(0x22)]), [0x0e, 0x21, 0x7f, 0x0f, 0x41, 0x0e, 0x22, 0x0f]);
  assert.deepStrictEqual(bytesOfSigns([{ set: "N", code: 0x40, accent: 0 }]), [0x1d, 0x40]);
  const own = { set: "D", code: 0x21, accent: 0 };
  assert.deepStrictEqual(bytesOfSigns([own, own]), [0x1b, 0x28, 0x20, 0x40, 0x21, 0x21, 0x1b, 0x28, 0x40]);
});

test("what text can say is text, and the rest raw after what can be read", () => {
  assert.deepStrictEqual(linesOfSigns(knownSigns("Hallo")), ["text Hallo"]);
  assert.deepStrictEqual(linesOfSigns(knownSigns("für")), ["# für", "raw 0F6619487572"]);
  assert.deepStrictEqual(linesOfSigns([{ set: "M", code: 0x35, accent: 0 }]), ["raw 0E350F"]);
});

test("typed lines become those of the program's grammar", () => {
  const wanted = {
    "  at  3\t5 ": "at 3 5", "text  a ": "text  a ", "\ttext für": "raw 0F6619487572", " # Größe ": "# Größe ", "": "", "undo\t": "undo", "text €": "text €",
  };
  for (const [typed, line] of Object.entries(wanted)) assert.strictEqual(inGrammar(typed), line, typed);
  // The signs of Kelvin and of a Greek question are composed to K and a semicolon.
  assert.strictEqual(inGrammar("text \u212a\u037e"), "raw 0F4B3B");
  assert.deepStrictEqual(unknownIn("text ö €x"), { sign: "€", place: 8 });
  assert.strictEqual(unknownIn("text Hallo"), null);
});

test("a table is named where it isn't the one that was named last", () => {
  assert.deepStrictEqual(tableLines(2, "table 2"), []);
  assert.deepStrictEqual(tableLines(2, null), ["table 2"]);
  assert.deepStrictEqual(colourLines("c1", [[3, 0], [12, 16]], "table 0"), ["c1 3", "table 1", "c1 20"]);
  assert.deepStrictEqual(colourLines("row", [[null, 0], [31, 16]], null), ["table 3", "row 23"]);
  assert.deepStrictEqual(colourLines("c1", [[9, 0], [10, 16]], "table 1"), ["c1 1", "c1 18"]);
  assert.deepStrictEqual(colourLines("c1", [[12, 0], [13, 16]], "table 0"), ["table 1", "c1 4", "c1 21"]);
});

test("the lines that a pen may have are bytes", () => {
  assert.deepStrictEqual(bytesOfLine("c1 13"), [0x8d]);
  assert.deepStrictEqual(bytesOfLine("table 2"), [0x9b, 0x32, 0x40]);
  assert.deepStrictEqual(bytesOfLine("raw 9B3241"), [0x9b, 0x32, 0x41]);
  const chosen = [...Object.values(PEN.size), ...Object.values(PEN.flash), ...Object.values(PEN.switches), ...Object.values(MARKERS)];
  for (const line of chosen.filter(Boolean)) assert.ok(bytesOfLine(line).every((byte) => byte > 0 && byte < 256), line);
});

test("a pattern is its form, its code and six pixels a byte, plane by plane", () => {
  const pixels = [...new Array(6).fill(1), ...new Array(23).fill(0), 1];
  assert.strictEqual(patternLine(0x21, { width: 6, height: 5, planes: 1, pixels }), "raw 1F232020403C411F2321307F40404041");
  const inks = [...new Array(6).fill(2), ...new Array(29).fill(0), 3];
  assert.strictEqual(patternLine(0x7e, { width: 6, height: 6, planes: 2, pixels: inks }), "raw 1F232020403F421F237E30404040404041317F4040404041");
  assert.throws(() => patternLine(0x21, { width: 7, height: 5, planes: 1, pixels }), RangeError);
});

test("format, colours and the entries of four inks are lines", () => {
  assert.deepStrictEqual([formatLine(24, true), formatLine(20, false)], ["raw 1F2D4170", "raw 1F2D4271"]);
  assert.strictEqual(coloursLine, "raw 1F2621");
  assert.strictEqual(dclutLine([0, 1, 30, 31]), "raw 1F2620221F26303040415E5F");
  assert.strictEqual(raw(0, 0xff), "raw 00FF");
  assert.ok(sameBytes(Uint8Array.of(1, 2), [1, 2]) && !sameBytes(Uint8Array.of(1, 2), [1]) && !sameBytes(Uint8Array.of(1), [2]));
});
