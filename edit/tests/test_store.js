// What outlasts a crash, over a storage and locks that stand in for a browser's.
import assert from "node:assert";
import { test } from "node:test";
import { Store, fromLetters, toLetters } from "../store.js";

class Memory {
  constructor() {
    // How many letters the storage takes, which is none of its items.
    Object.defineProperty(this, "most", { value: Infinity, writable: true, enumerable: false });
  }

  takes(most) {
    this.most = most;
  }

  getItem(key) {
    return Object.hasOwn(this, key) ? this[key] : null;
  }

  setItem(key, value) {
    if (String(value).length > this.most) throw new Error("no room");
    this[key] = String(value);
  }

  removeItem(key) {
    delete this[key];
  }
}

class Locks {
  constructor() {
    this.held = [];
  }

  async request(name, { ifAvailable }, act) {
    assert.ok(ifAvailable, "it waits");
    if (this.held.includes(name)) return act(null);
    this.held.push(name);
    await act({ name });
    this.held.splice(this.held.indexOf(name), 1);
    return undefined;
  }
}

const KEPT = {
  name: "boat.btx", page: Uint8Array.of(0, 0x41, 0xff), cuts: [], script: "at 1 1\ntext A\n", saved: "", isOther: false, drawing: "", painted: null,
};
const PAINTED = { code: 0x21, size: "6x5", planes: 1, field: [1, 0, 1] };

// An editor that begins over a storage; of one that ended only what the storage has is left.
async function begun(storage) {
  const locks = new Locks();
  const store = new Store(() => storage, locks);
  return { store, locks, taken: await store.taken() };
}

test("bytes are letters and back", () => {
  const bytes = Uint8Array.from({ length: 10000 }, (_, at) => at % 256);
  assert.deepStrictEqual(fromLetters(toLetters(bytes)), bytes);
  assert.strictEqual(toLetters(Uint8Array.of(0x4d, 0x61, 0x6e)), "TWFu");
});

test("what was left unsaved is taken by the next editor, which goes on in its place", async () => {
  const storage = new Memory();
  const first = await begun(storage);
  assert.strictEqual(first.taken, null);
  assert.ok(first.store.put(KEPT, true));
  const second = await begun(storage);
  const { name, page, cuts, script, saved, isOther, drawing, painted } = second.taken;
  assert.deepStrictEqual({ name, page, cuts, script, saved, isOther, drawing, painted }, KEPT);
  assert.strictEqual(second.store.id, first.store.id);
});

test("a script is kept without its page anew", async () => {
  const storage = new Memory();
  const { store } = await begun(storage);
  store.put(KEPT, true);
  store.put({ ...KEPT, page: Uint8Array.of(1), script: "at 2 2\n" }, false);
  const { page, script } = (await begun(storage)).taken;
  assert.deepStrictEqual([page, script], [KEPT.page, "at 2 2\n"]);
});

test("a script isn't kept beside the page of another, and a page that found no room is kept once it finds some", async () => {
  const storage = new Memory();
  const { store } = await begun(storage);
  store.put(KEPT, true);
  const other = { ...KEPT, name: "other.btx", page: new Uint8Array(1000), script: "at 3 3\n" };
  storage.takes(500);
  assert.deepStrictEqual([store.put(other, true), store.put(other, false)], [false, false]);
  assert.strictEqual((await begun(storage)).taken, null);
  storage.takes(Infinity);
  const again = new Store(() => storage, new Locks());
  assert.deepStrictEqual([again.put(other, false), again.of(again.id).name, again.of(again.id).script], [true, "other.btx", "at 3 3\n"]);
});

test("a page is kept with no script of another, where its own finds no room", async () => {
  const storage = new Memory();
  const { store } = await begun(storage);
  store.put(KEPT, true);
  const other = { ...KEPT, name: "other.btx", page: Uint8Array.of(0x42), script: "#".repeat(1000) };
  storage.takes(500);
  assert.strictEqual(store.put(other, true), false);
  assert.strictEqual(new Store(() => storage, undefined).of(store.id), null);
  // Of the same page the script before stays, and one that finds room is kept with its page.
  storage.takes(Infinity);
  assert.ok(store.put(KEPT, false));
  storage.takes(500);
  assert.strictEqual(store.put({ ...KEPT, script: other.script }, false), false);
  const { page, script } = (await begun(storage)).taken;
  assert.deepStrictEqual([page, script], [KEPT.page, KEPT.script]);
});

test("the cuts of a page are kept with it, and a page that was cut is unsaved whatever its script", async () => {
  const storage = new Memory();
  const cuts = [{ page: Uint8Array.of(0, 0x41, 0xff, 0x42), script: "at 2 2\n", kept: "at 2 2" }];
  (await begun(storage)).store.put({ ...KEPT, cuts, saved: KEPT.script, isOther: true }, true);
  const { taken } = await begun(storage);
  assert.deepStrictEqual([taken.cuts, taken.isOther, taken.script], [cuts, true, KEPT.script]);
});

test("what is drawn or painted is kept with a script that was saved, and is unsaved", async () => {
  for (const begins of [{ drawing: "plot 1 2\nbox 1 1 5 5", painted: null }, { drawing: "", painted: PAINTED }]) {
    const storage = new Memory();
    (await begun(storage)).store.put({ ...KEPT, saved: KEPT.script, ...begins }, true);
    const { drawing, painted } = (await begun(storage)).taken;
    assert.deepStrictEqual({ drawing, painted }, begins);
  }
});

test("what was saved isn't taken, and goes", async () => {
  const storage = new Memory();
  (await begun(storage)).store.put({ ...KEPT, saved: KEPT.script }, true);
  assert.strictEqual((await begun(storage)).taken, null);
  assert.deepStrictEqual(Object.keys(storage), []);
});

test("what an editor has that is open is left to it", async () => {
  const storage = new Memory();
  const first = await begun(storage);
  first.store.put(KEPT, true);
  const second = new Store(() => storage, first.locks);
  assert.strictEqual(await second.taken(), null);
  assert.notStrictEqual(second.id, first.store.id);
  assert.notStrictEqual(first.store.of(first.store.id), null);
});

// What three editors left: of each its name, when it was changed last, and its script.
function leftByThree() {
  const storage = new Memory();
  for (const [id, time, script] of [["a", 5, "at 1 1\n"], ["b", 9, "at 2 2\n"], ["c", 7, "at 3 3\n"]]) {
    storage.setItem(`tamligub.editor.${id}.page`, JSON.stringify({ name: id, page: "" }));
    storage.setItem(`tamligub.editor.${id}.script`, JSON.stringify({ script, saved: "", time }));
  }
  return storage;
}

test("of several the one is taken that was changed last", async () => {
  const storage = leftByThree();
  storage.setItem("another", "thing");
  const { store, taken } = await begun(storage);
  assert.deepStrictEqual([store.id, taken.name, taken.script], ["b", "b", "at 2 2\n"]);
  assert.deepStrictEqual(store.ids().sort(), ["a", "b", "c"]);
});

test("a tab takes its own again after a reload, where no other has that", async () => {
  const [storage, tab] = [leftByThree(), new Memory()];
  tab.setItem("tamligub-editor", "a");
  const store = new Store(() => storage, new Locks(), () => tab);
  assert.strictEqual((await store.taken()).name, "a");
  // A copy of the tab has the same name, and the first is open.
  const copy = new Store(() => storage, store.locks, () => tab);
  assert.deepStrictEqual([(await copy.taken()).name, tab.getItem("tamligub-editor")], ["b", "b"]);
});

test("of editors that begin at once each takes another", async () => {
  const [storage, locks] = [leftByThree(), new Locks()];
  const stores = Array.from({ length: 4 }, () => new Store(() => storage, locks));
  const taken = await Promise.all(stores.map((store) => store.taken()));
  assert.deepStrictEqual(taken.map((kept) => kept && kept.name), ["b", "c", "a", null]);
  assert.strictEqual(new Set(stores.map(({ id }) => id)).size, 4);
  assert.deepStrictEqual(locks.held.sort(), stores.map(({ id }) => `tamligub.editor.${id}.script`).sort());
});

test("what an editor saves that ends meanwhile isn't taken, and what it leaves unsaved doesn't go", async () => {
  const storage = leftByThree();
  const name = (id) => `tamligub.editor.${id}.script`;
  // As its lock is asked for, one editor has just saved and another hasn't.
  const [kept, saved] = [storage.getItem(name("a")), JSON.stringify({ script: "", saved: "", time: 9 })];
  storage.setItem(name("a"), saved);
  class Ending extends Locks {
    request(asked, options, act) {
      if (asked === name("b")) storage.setItem(asked, saved);
      if (asked === name("a")) storage.setItem(asked, kept);
      return super.request(asked, options, act);
    }
  }
  const store = new Store(() => storage, new Ending());
  assert.strictEqual((await store.taken()).name, "c");
  assert.deepStrictEqual([store.id, storage.getItem(name("a"))], ["c", kept]);
});

test("a browser that refuses its locks has none", async () => {
  const storage = leftByThree();
  storage.setItem("tamligub.editor.d.script", JSON.stringify({ script: "", saved: "", time: 4 }));
  const store = new Store(() => storage, { request: () => Promise.reject(new Error("refused")) });
  assert.deepStrictEqual([(await store.taken()).name, store.id, store.ids().sort()], ["b", "b", ["a", "b", "c"]]);
});

test("a browser that refuses a storage, or has no locks, keeps nothing and hinders nothing", async () => {
  const refused = new Store(() => { throw new Error("refused"); }, undefined);
  assert.strictEqual(await refused.taken(), null);
  assert.strictEqual(refused.put(KEPT, true), false);
});
