// The words of both languages, and of which the viewer speaks.
import assert from "node:assert";
import { readFileSync, readdirSync } from "node:fs";
import { test } from "node:test";
import "./stub.js";
import { grouped, spoken, word } from "../language.js";
import { TABLES } from "../words.js";

const FOLDER = new URL("../", import.meta.url);
const textOf = (name) => readFileSync(new URL(name, FOLDER), "utf8");

test("both tables have the same words with the same values", () => {
  assert.deepStrictEqual(Object.keys(TABLES.de), Object.keys(TABLES.en));
  const valuesOf = (text) => [...text.matchAll(/\{(\w+)\}/g)].map(([, name]) => name).sort();
  for (const [key, text] of Object.entries(TABLES.de)) assert.deepStrictEqual(valuesOf(text), valuesOf(TABLES.en[key]), key);
});

test("each word that a document or a module asks for is there, and each that is there is asked for", () => {
  const texts = readdirSync(FOLDER).filter((name) => /\.(js|html)$/.test(name) && name !== "words.js").map(textOf).join("\n");
  const named = [...texts.matchAll(/data-(?:word|name|role|empty)="(\w+)"/g)].map(([, key]) => key);
  const asked = [...texts.matchAll(/\bword\("(\w+)"/g)].map(([, key]) => key);
  assert.ok(named.length > 60 && asked.length > 30);
  assert.deepStrictEqual([...named, ...asked].filter((key) => !Object.hasOwn(TABLES.en, key)), []);
  const quoted = new Set([...texts.matchAll(/["`](\w+)["`$]/g)].map(([, key]) => key));
  // Of these the last part is made: how many are refused, and the status of the program.
  const made = /^(refused(None|One|Some)(Of)?|ended\d)$/;
  assert.deepStrictEqual(Object.keys(TABLES.en).filter((key) => !named.includes(key) && !quoted.has(key) && !made.test(key)), []);
});

test("words have their values, and numbers their groups", () => {
  assert.strictEqual(spoken(), "en");
  assert.strictEqual(word("cellAt", { at: 7 }), "Its command is at byte 7.");
  assert.strictEqual(grouped(1234567), "1,234,567");
});
