// Tests the viewer's modules where they need no page and no program, under Node: node modules.js TEXTS, where TEXTS is a file of JSON that has
// for each page its length and what the program puts.
import "./stub.js";
import "./test_texts.js";
import "./test_screen.js";
import "./test_player.js";
import "./test_words.js";
import "./test_asking.js";
