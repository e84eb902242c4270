// Tests the editor's modules where they need no page, under Node: node modules.js [MODULE], where MODULE is a tamligub.wasm; without it what
// asks the program is left out. Values are reckoned, or those of docs/PROFILE.md.
import "./test_lines.js";
import "./test_making.js";
import "./test_words.js";
import "./test_store.js";
import "./test_ask.js";
import "./test_sheet.js";
import "./test_items.js";
import "./test_grammar.js";
import "./test_steps.js";
import "./test_typing.js";
import "./test_facts.js";
