// The types of what several modules hand each other, in JSDoc alone: nothing of this file runs, and nothing of it stands in the page.

/**
 * Signs, patterns, looks and texts of the program, as the viewer reads them; its screen and its painter.
 * @typedef {import("../view/types.js").Sign} Sign
 * @typedef {import("../view/types.js").Pattern} Pattern
 * @typedef {import("../view/types.js").Look} Look
 * @typedef {import("../view/types.js").Moment} Moment
 * @typedef {import("../view/types.js").Refusal} Refusal
 * @typedef {import("../view/types.js").Course} Course
 * @typedef {import("../view/types.js").Trace} Trace
 * @typedef {import("../view/types.js").Cells} Cells
 * @typedef {import("../view/types.js").Check} Check
 * @typedef {import("../view/types.js").Things} Things
 * @typedef {import("../view/types.js").Runs} Run
 * @typedef {import("../view/types.js").Notice} Notice
 * @typedef {import("../view/text.js").Looks} Looks
 * @typedef {import("../view/screen.js").Screen} Screen
 * @typedef {import("../view/paint.js").Painter} Painter
 */

/**
 * What a line of a script does: the cells that it changes, and the numbers of their looks after it.
 * @typedef {{ cells: number[], numbers: number[] }} Step
 */

/**
 * What a part tells the editor, by its kind: an action to add (`act`); lines or signs that belong at the caret (`mark`, `write`); that
 * the script was changed at the caret (`changed`), by hand (`typed`), or is to be tidied (`tidy`); that lines of a drawing were opened
 * (`figures`); that the caret moved (`moved`), and that where it is should be told (`arrived`); that another pen was chosen (`chosen`);
 * that the screen shows something else (`seen`), or what it was after an item (`stepped`), or other cells are to be outlined
 * (`pointed`); that what is drawn or painted is another (`drawn`); that the page is to be cut after some items (`cut`); that a page was
 * taken (`taken`), or its name or what is kept of it is another (`named`); and words to be shown (`said`), of which a warning lasts for
 * some keys.
 * @typedef {{ kind: "act" | "mark", lines: string[] } | { kind: "write", signs: Sign[] } | { kind: "typed" | "figures", text: string }
 *   | { kind: "said", text: string, isFault?: boolean, lasts?: boolean } | { kind: "taken", kept: import("./store.js").Kept }
 *   | { kind: "cut", items: import("./items.js").PageItems, count: number, makesLines: boolean }
 *   | { kind: "changed" | "tidy" | "moved" | "arrived" | "chosen" | "seen" | "stepped" | "pointed" | "drawn" | "named" }} Happening
 */

/** @typedef {(happening: Happening) => void} Tell */

export {};
