// The words of both languages, and files, of which no page is needed.
import assert from "node:assert";
import { test } from "node:test";
import "./scripts.js";
import { documentOf, kindOfFile, remarksOn, sortedFiles, withEnding } from "../keep.js";
import { PALETTES } from "../mosaic.js";
import { TABLES, word } from "../words.js";

const placesIn = (text) => [...text.matchAll(/\{(\w+)\}/g)].map((found) => found[1]).sort();

test("both languages have the same words, with places for the same values", () => {
  assert.deepStrictEqual(Object.keys(TABLES.de), Object.keys(TABLES.en));
  for (const key of Object.keys(TABLES.de)) assert.deepStrictEqual(placesIn(TABLES.de[key]), placesIn(TABLES.en[key]), key);
});

test("a word has values in the places of their names", () => {
  assert.strictEqual(word("where", { row: 3, column: 5 }), "Zeile 3, Spalte 5");
});

test("a file is a page, a script or a drawing by its name, or by its first word", () => {
  const names = [["boat.btx", ""], ["README.md", "plot 1 1"], ["boat.TXT", "at 1 1"], ["a.script", ""], ["a.drawing", "at 1 1"], ["a.txt", "plot 1 1"]];
  assert.deepStrictEqual(names.map(([name, text]) => kindOfFile(name, text)), ["page", "page", "script", "script", "drawing", "drawing"]);
  const [page, script] = [{ kind: "page" }, { kind: "script" }];
  assert.deepStrictEqual(sortedFiles([script, page]), { script, page, drawing: undefined, rest: [] });
  assert.deepStrictEqual(sortedFiles([page]), { script: undefined, page, drawing: undefined, rest: [] });
  assert.deepStrictEqual(sortedFiles([script]), { script, page: undefined, drawing: undefined, rest: [] });
  assert.deepStrictEqual(sortedFiles([]), { script: undefined, page: undefined, drawing: undefined, rest: [] });
  const [other, drawing] = [{ kind: "page" }, { kind: "drawing" }];
  assert.deepStrictEqual(sortedFiles([drawing, page, script, other, script]), { script, page, drawing, rest: [other] });
  assert.deepStrictEqual([withEnding("boat.btx", ".png"), withEnding("a.b.script", ".txt"), withEnding("boat", "")], ["boat.png", "a.b.txt", "boat"]);
});

test("what isn't opened is told, and what is taken for a page", () => {
  assert.strictEqual(remarksOn("boat.btx", []), "");
  assert.strictEqual(remarksOn(null, []), "");
  assert.match(remarksOn("boat.png", []), /^boat\.png ist als Seite geöffnet, /);
  assert.match(remarksOn("boat.btx", ["house.btx", "a.txt"]), /^Nicht geöffnet: house\.btx, a\.txt; /);
  assert.match(remarksOn("README.md", ["boat.drawing", "x"]), /^README\.md ist .* Nicht geöffnet: boat\.drawing, x; /);
});

test("what is kept as HTML can end no script in its document", () => {
  const text = documentOf(["<b>", "</b>"], { name: "</script>ä€", page: "QQ==" });
  assert.strictEqual(text, '<b>[{"name":"\\u003c/script>\\u00e4\\u20ac","page":"QQ=="}]</b>');
});

test("the palettes have each mosaic of both sets once", () => {
  const codes = Object.values(PALETTES).flat().map(({ set, code }) => `${set}${code.toString(16)}`);
  // Of the first set 2/1 to 7/15, of the second 4/0 to 5/14 and 6/0 to 7/14.
  const wanted = [[0x21, 0x7f, "M"], [0x40, 0x5e, "N"], [0x60, 0x7e, "N"]];
  const all = wanted.flatMap(([first, last, set]) => Array.from({ length: last - first + 1 }, (_, at) => `${set}${(first + at).toString(16)}`));
  assert.deepStrictEqual(codes.sort(), all.sort());
});
