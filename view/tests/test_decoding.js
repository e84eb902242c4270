// What a drop has, and what the program puts of its pages, or the words of why it can't.
import assert from "node:assert";
import { test } from "node:test";
import { asked, module, pages, restored, stored } from "./stub.js";
import { PageFault, bytesOf, decoded, handed, isChanges, givenOf, named } from "../decoding.js";
import { sorted } from "../files.js";

const pageOf = (name) => ({ name, arrayBuffer: async () => new ArrayBuffer(3) });
const fileEntry = (name) => ({ name, isDirectory: false, file: (done) => done(pageOf(name)) });
// A folder as an entry, which gives what is in it two at a time; and as a handle.
const entryOf = (name, ...within) => ({
  name, isDirectory: true,
  createReader: () => {
    const left = within.slice();
    return { readEntries: (done) => done(left.splice(0, 2)) };
  },
});
const handleOf = (name, ...within) => ({ kind: "directory", name, async *values() { yield* within; } });
const fileHandle = (name) => ({ kind: "file", name, getFile: async () => pageOf(name) });
const item = (entry, handle) => ({
  kind: "file", webkitGetAsEntry: () => entry, getAsFile: () => pageOf(entry.name), ...(handle ? { getAsFileSystemHandle: async () => handle } : {}),
});

asked("each page is decoded as the program does", async () => {
  restored();
  for (const [name, page] of Object.entries(pages)) {
    const found = await decoded(module, { name: `${name}.btx`, bytes: stored(name) });
    const flash = /^[1-6] /m.test(page.flash) ? page.flash : null;
    assert.deepStrictEqual([found.name, found.changes, found.check, found.flash], [name, page.changes, page.check, flash]);
    assert.deepStrictEqual(found.page, stored(name));
  }
});

asked("a page that is too long is told, and one of the most bytes isn't", async () => {
  restored();
  const most = 1 << 24;
  await assert.rejects(decoded(module, { name: "long.btx", bytes: new Uint8Array(most + 1) }), (fault) => {
    assert.ok(fault instanceof PageFault);
    return fault.told().startsWith("long.btx: the page has more than 16,777,216 bytes");
  });
  assert.strictEqual((await decoded(module, { name: "most.btx", bytes: new Uint8Array(most) })).changes, "");
});

test("each end of the program has its words, and one without an answer those of memory", async () => {
  const file = { name: "one.btx", bytes: new Uint8Array(1) };
  const said = [[6, "one.btx: there is not enough memory; nothing was written"], [9, "one.btx: the program ended with status 9"]];
  for (const [status, words] of said) {
    globalThis.Tamligub.run = () => ({ status, text: new Uint8Array() });
    await assert.rejects(decoded(null, file), (fault) => fault.told() === words);
  }
  globalThis.Tamligub.run = () => {
    throw new RangeError("no memory");
  };
  await assert.rejects(decoded(null, file), (fault) => fault.told() === said[0][1]);
  await assert.rejects(bytesOf({ name: "gone.btx", file: { arrayBuffer: () => Promise.reject(new Error()) } }),
    (fault) => fault.told() === "gone.btx: it could not be read to its end");
  restored();
});

test("faults of some don't keep the others away", async () => {
  const faults = [];
  const found = await givenOf([1, 2, 3], faults, async (one) => {
    if (one === 2) throw new PageFault("two", "noPages");
    return 10 * one;
  });
  assert.deepStrictEqual([found, faults.map((fault) => fault.told())], [[10, 30], ["two: no file in it ends in .btx"]]);
  await assert.rejects(givenOf([1], [], () => Promise.reject(new TypeError("another"))), TypeError);
});

test("pages have their names, and paths where two have the same", () => {
  const files = ["a/one.btx", "b/one.btx", "b/two.btx"].map((path) => ({ path, file: { name: path.slice(2) } }));
  assert.deepStrictEqual(named(files).map(({ name }) => name), ["a/one.btx", "b/one.btx", "two.btx"]);
});

test("a folder gives what ends in .btx, in the order of the paths, in folders too", async () => {
  const deep = ["deep", [fileEntry("z.BTX"), fileEntry("note.txt")]];
  const entry = entryOf("top", fileEntry("b.btx"), fileEntry("c.txt"), fileEntry("a.btx"), entryOf(deep[0], ...deep[1]));
  const handle = handleOf("top", fileHandle("b.btx"), fileHandle("c.txt"), fileHandle("a.btx"), handleOf("deep", fileHandle("z.BTX")));
  for (const one of [item(entry), item(entry, handle)]) {
    const faults = [];
    const found = await handed({ items: [one, item(fileEntry("any"))] }, faults);
    assert.deepStrictEqual(found.map(({ path }) => path), ["top/a.btx", "top/b.btx", "top/deep/z.BTX", "any"]);
    assert.deepStrictEqual(faults, []);
  }
});

test("a folder without pages, and one that can't be read, are told", async () => {
  const faults = [];
  const broken = { ...entryOf("broken"), createReader: () => ({ readEntries: (_, fail) => fail(new Error()) }) };
  assert.deepStrictEqual(await handed({ items: [item(entryOf("empty")), item(broken)] }, faults), []);
  assert.deepStrictEqual(faults.map((fault) => fault.told()).sort(), ["broken: it could not be read to its end", "empty: no file in it ends in .btx"]);
});

test("a text of changes is told from a page", () => {
  const bytes = (text) => new TextEncoder().encode(text);
  assert.deepStrictEqual(["0 1 1 P41 11.00 FFF 000 S---\nx", "! 0 2 6 Interrupted", "hello\n", ""].map((text) => isChanges(bytes(text))), [true, true, false, false]);
  // A line feed is a command as others: the cursor goes down.
  assert.deepStrictEqual(["\nA", "\n", "\n0 1 1 P41 11.00 FFF 000 S---\n"].map((text) => isChanges(bytes(text))), [false, false, false]);
});

test("a page that begins with a line feed stands beside its text of changes", () => {
  const [page, text] = ["\nA", "1 2 1 P41 11.00 FFF 000 S---\n"].map((one) => new TextEncoder().encode(one));
  for (const list of [[{ name: "page", bytes: page }, { name: "text", bytes: text }], [{ name: "text", bytes: text }, { name: "page", bytes: page }]]) {
    const parts = sorted(list);
    assert.deepStrictEqual([parts.name, parts.changes, parts.page], ["text", "1 2 1 P41 11.00 FFF 000 S---\n", page]);
  }
});
