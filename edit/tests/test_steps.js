// Going back over what was changed in a text: places and texts are reckoned by hand.
import assert from "node:assert";
import { test } from "node:test";
import { Steps } from "../steps.js";

// The steps of texts, each of a kind, from the first one on.
function stepsOf(first, ...changes) {
  const steps = new Steps();
  steps.follow(first);
  for (const [text, kind] of changes) steps.note(text, kind);
  return steps;
}

test("letters one after the other are one step, and others are steps of their own", () => {
  const steps = stepsOf("ab\n", ["abc\n", "insertText"], ["abcd\n", "insertText"], ["abcd\n\n", "insertLineBreak"], ["xabcd\n\n", "insertText"]);
  const undone = [1, 2, 3].map(() => [steps.undoRedo("undo"), steps.text]);
  assert.deepStrictEqual(undone, [[0, "abcd\n\n"], [5, "abcd\n"], [2, "ab\n"]]);
  assert.strictEqual(steps.undoRedo("undo"), null);
  const redone = [1, 2, 3].map(() => [steps.undoRedo("redo"), steps.text]);
  assert.deepStrictEqual(redone, [[4, "abcd\n"], [6, "abcd\n\n"], [1, "xabcd\n\n"]]);
  assert.strictEqual(steps.undoRedo("redo"), null);
});

test("what is composed is replaced within its step, and what is taken away key by key is one", () => {
  const composed = stepsOf("a", ["an", "insertCompositionText"], ["ani", "insertCompositionText"], ["anî", "insertCompositionText"]);
  assert.deepStrictEqual([composed.undoRedo("undo"), composed.text], [1, "a"]);
  const back = stepsOf("abcd", ["abc", "deleteContentBackward"], ["ab", "deleteContentBackward"]);
  assert.deepStrictEqual([back.undoRedo("undo"), back.text], [4, "abcd"]);
});

test("each change without a kind is a step, and so is what follows one that was taken back", () => {
  const steps = stepsOf("", ["a", ""], ["ab", ""]);
  assert.deepStrictEqual([steps.undoRedo("undo"), steps.text], [1, "a"]);
  const other = stepsOf("", ["a", "insertText"]);
  other.undoRedo("undo");
  other.undoRedo("redo");
  other.note("ab", "insertText");
  assert.deepStrictEqual([other.undoRedo("undo"), other.text], [1, "a"]);
});

test("of which kind the last step was is known until it is taken back", () => {
  const steps = stepsOf("abc", ["ab", "deleteContentBackward"], ["b", "tidying"]);
  const kinds = [1, 2, 3].map(() => [steps.kind(), steps.undoRedo("undo")][0]);
  assert.deepStrictEqual(kinds, ["tidying", "deleteContentBackward", ""]);
});

test("what is added at the end is a step each, however much stands before", () => {
  const steps = stepsOf("", ["a", "insertText"]);
  for (let count = 0; count < 100000; count++) steps.append("\nplot 12 34");
  assert.deepStrictEqual([steps.undoRedo("undo"), steps.text.length], [1 + 11 * 99999, 1 + 11 * 99999]);
  assert.deepStrictEqual([steps.undoRedo("redo"), steps.text.length], [1 + 11 * 100000, 1 + 11 * 100000]);
  steps.undoRedo("undo");
  steps.append("");
  assert.strictEqual(steps.undone.length, 1);
  steps.append("b");
  assert.deepStrictEqual([steps.undoRedo("redo"), steps.undoRedo("undo")], [null, 1 + 11 * 99999]);
});

test("after another step nothing is made again, and of another text there are no steps", () => {
  const steps = stepsOf("", ["a", ""]);
  steps.undoRedo("undo");
  steps.note("b");
  assert.strictEqual(steps.undoRedo("redo"), null);
  steps.follow("b");
  assert.strictEqual(steps.done.length, 1);
  steps.follow("c");
  assert.strictEqual(steps.undoRedo("undo"), null);
});
