// What a person changes in a text, step by step, to go back over it and forth again. A browser's own undo goes over all fields of a page
// together, and forgets what a script of the page sets.

/**
 * What stood at a place of the text, and what stands there since; of which kind the change was.
 * @typedef {{ at: number, before: string, after: string, kind: string }} Step
 */

/**
 * How one text became another: what both begin and end with is left out.
 * @param {string} before
 * @param {string} after
 * @param {string} kind
 * @returns {Step}
 */
function stepBetween(before, after, kind) {
  const most = Math.min(before.length, after.length);
  let at = 0;
  while (at < most && before[at] === after[at]) at++;
  let rest = 0;
  while (rest < most - at && before[before.length - 1 - rest] === after[after.length - 1 - rest]) rest++;
  return { at, before: before.slice(at, before.length - rest), after: after.slice(at, after.length - rest), kind };
}

/**
 * One step of two of a kind, where what was written or taken away goes on; null where it doesn't.
 * @param {Step | undefined} last
 * @param {Step} next
 * @returns {Step | null}
 */
function joined(last, next) {
  if (!last || next.kind === "" || last.kind !== next.kind) return null;
  const within = next.at - last.at;
  if (within >= 0 && within + next.before.length === last.after.length) return { ...last, after: last.after.slice(0, within) + next.after };
  const isBackward = last.after === next.after && next.after === "" && next.at + next.before.length === last.at;
  return isBackward ? { ...next, before: next.before + last.before } : null;
}

/**
 * Of which kind a change of a field was, as the browser tells it.
 * @param {Event} event
 */
export const kindOf = (event) => (event instanceof InputEvent ? event.inputType : "");

export class Steps {
  constructor() {
    this.text = "";
    /** @type {Step[]} */
    this.done = [];
    /** @type {Step[]} */
    this.undone = [];
  }

  /**
   * Begins anew where the text is another than after the last step.
   * @param {string} text
   */
  follow(text) {
    if (text === this.text) return;
    this.text = text;
    [this.done, this.undone] = [[], []];
  }

  /**
   * Notes that the text is another now. Changes of one kind that go on where the last one ended are one step, those without a kind one each.
   * @param {string} text
   * @param {string} [kind]
   */
  note(text, kind = "") {
    if (text === this.text) return;
    const next = stepBetween(this.text, text, kind);
    const whole = joined(this.done[this.done.length - 1], next);
    this.done = [...(whole ? this.done.slice(0, -1) : this.done), whole || next];
    this.undone = [];
    this.text = text;
  }

  /**
   * Notes that more stands at the end of the text now, as a step of its own: without a look at what stands before.
   * @param {string} more
   */
  append(more) {
    if (more === "") return;
    this.done.push({ at: this.text.length, before: "", after: more, kind: "" });
    this.undone = [];
    this.text += more;
  }

  // The kind of the last step, or nothing.
  kind() {
    const last = this.done[this.done.length - 1];
    return last ? last.kind : "";
  }

  /**
   * Takes the last step back, or makes the one that was taken back last again. Answers the place behind what is another, or null where there
   * was none.
   * @param {"undo" | "redo"} word
   * @returns {number | null}
   */
  undoRedo(word) {
    const step = (word === "undo" ? this.done : this.undone).pop();
    if (!step) return null;
    const [gone, come] = word === "undo" ? [step.after, step.before] : [step.before, step.after];
    this.text = this.text.slice(0, step.at) + come + this.text.slice(step.at + gone.length);
    (word === "undo" ? this.undone : this.done).push({ ...step, kind: "" });
    return step.at + come.length;
  }
}
