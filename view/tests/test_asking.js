// Asking the program: in the same thread for a short page, in a Worker for a long one, and in the same thread where there is none.
import assert from "node:assert";
import { resolveObjectURL } from "node:buffer";
import { test } from "node:test";
import vm from "node:vm";
import "./stub.js";

const LONG = new Uint8Array(5000);
const SHORT = new Uint8Array(100);
const answerOf = (word, { page }) => ({ status: 0, text: Uint8Array.from([word.length, page.length & 0xff]) });
let runs = 0;
let made = 0;
let counter = 0;

// A Worker of the text that it is made of, in a context of its own.
class Worker {
  constructor(address) {
    made++;
    const scope = { Uint8Array, postMessage: (data) => setImmediate(() => this.onmessage({ data })) };
    this.ready = resolveObjectURL(address).text().then((text) => vm.runInNewContext(text, scope));
    this.scope = scope;
  }

  postMessage(data) {
    this.ready.then(() => this.scope.onmessage({ data: structuredClone(data) }));
  }
}

class BadWorker {
  constructor() {
    made++;
  }

  postMessage() {
    setImmediate(() => this.onerror({ preventDefault() {} }));
  }
}

// The module anew, over a Worker.
async function asking(worker, calling) {
  [runs, made] = [0, 0];
  globalThis.Worker = worker;
  Object.assign(globalThis.Tamligub, {
    calling,
    run: (_, word, things) => {
      runs++;
      return answerOf(word, things);
    },
  });
  return (await import(`../asking.js?${++counter}`)).ask;
}

const calling = new Function(`return { run: ${"(_, word, { page }) => ({ status: 0, text: Uint8Array.from([word.length, page.length & 0xff]) })"} };`);
const failing = new Function("return { run: () => { throw new RangeError('no memory'); } };");

test("a short page is asked in the same thread, and begins no Worker", async () => {
  const ask = await asking(Worker, calling);
  assert.deepStrictEqual(await ask(null, "check", { page: SHORT }), answerOf("check", { page: SHORT }));
  assert.deepStrictEqual([runs, made], [1, 0]);
});

test("a long page is asked in one Worker, and each question has its answer", async () => {
  const ask = await asking(Worker, calling);
  const other = new Uint8Array(5001);
  const answers = await Promise.all([ask(null, "check", { page: LONG }), ask(null, "changes", { page: other }), ask(null, "flash", { page: LONG })]);
  const wanted = [answerOf("check", { page: LONG }), answerOf("changes", { page: other }), answerOf("flash", { page: LONG })];
  assert.deepStrictEqual(answers.map(({ status, text }) => [status, ...text]), wanted.map(({ status, text }) => [status, ...text]));
  assert.deepStrictEqual([runs, made], [0, 1]);
});

test("a fault in the Worker is told", async () => {
  const ask = await asking(Worker, failing);
  await assert.rejects(ask(null, "check", { page: LONG }), /no memory/);
  assert.strictEqual(runs, 0);
});

test("without a Worker, or with one that can't begin, it is asked in the same thread", async () => {
  for (const worker of [undefined, BadWorker]) {
    const ask = await asking(worker, calling);
    for (let turn = 1; turn <= 2; turn++) {
      assert.deepStrictEqual(await ask(null, "check", { page: LONG }), answerOf("check", { page: LONG }));
      assert.deepStrictEqual([runs, made], [turn, worker ? 1 : 0]);
    }
  }
});

test("a text that a browser can't hold is no empty one", async () => {
  const { wholeText } = await import("../asking.js");
  const { decode } = TextDecoder.prototype;
  TextDecoder.prototype.decode = () => "";
  try {
    assert.throws(() => wholeText({ status: 0, text: SHORT }), (fault) => fault.key === "textTooLong");
    assert.strictEqual(wholeText({ status: 0, text: new Uint8Array() }), "");
  } finally {
    TextDecoder.prototype.decode = decode;
  }
  assert.strictEqual(wholeText({ status: 1, text: Uint8Array.from([0x31, 0x0a]) }), "1\n");
});
