// What decoders of the module say, as the texts of cept_tool(1). It asks nothing of its host, so that it serves Node and browsers.
"use strict";

const REASONS = ["UnassignedControl", "UnknownEscape", "UnknownCsi", "UnknownUnit", "BadParameter", "Interrupted", "Truncated"];
const BLANK = "- 11.00 FFF 000 S---";

const hex = (number, digits) => number.toString(16).toUpperCase().padStart(digits, "0");
const colour = (it) => (it.behind ? "---" : hex(it.red * 256 + it.green * 16 + it.blue, 3));

function pattern({ w, h, planes, inks, bits, colours }) {
    const words = bits.slice(0, Math.ceil((w * h * planes) / 64)).map((word) => hex(word, 16));
    return `%${w}x${h}x${planes}/${words.join("")}${inks > 0 ? "/" : ""}${colours.slice(0, inks).map(colour).join("")}`;
}

function shape(notice) {
    const { kind, set, code, accent } = notice.sign;
    if (kind === 0) return "-";
    return kind === 2 ? pattern(notice.pattern) : "PSMND"[set] + hex(code, 2) + (accent ? "+" + hex(accent, 2) : "");
}

function look(it) {
    const flags = "SFIR123"[it.flash] + (it.conceal ? "c" : "-") + (it.lined ? "l" : "-") + (it.boxed ? "b" : "-");
    return `${shape(it)} ${it.h}${it.w}.${it.dy}${it.dx} ${colour(it.fore)} ${colour(it.back)} ${flags}`;
}

// The line of a notice as `changes` has it; with another number in the place of its own where one is given.
function line(it, number = it.at) {
    if (it.kind === 2) return `! ${it.at} ${it.length} ${it.reason} ${REASONS[it.reason - 1]}\n`;
    return `${number} ${it.row} ${it.column} ${look(it)}\n`;
}

// Numbers that are drawn from a seed.
function drawing(seed) {
    let state = BigInt(seed);
    return (below) => {
        state = BigInt.asUintN(64, state * 6364136223846793005n + 1442695040888963407n);
        return Number((state >> 33n) % BigInt(below));
    };
}

function changes(decoder, page, seed) {
    const draw = drawing(seed);
    let text = "";
    for (let from = 0; from < page.length; ) {
        const piece = seed === 0 ? 1 : 1 + draw(1 << draw(9));
        for (const notice of decoder.feed(page.subarray(from, from + piece))) text += line(notice);
        if (seed !== 0 && draw(4) === 0) decoder.flashTurn();
        from += piece;
    }
    for (const notice of decoder.finish()) text += line(notice);
    return text;
}

function cells(decoder) {
    let text = "";
    for (let row = 1; row <= decoder.state().rows; row++)
        for (let column = 1; column <= 40; column++) {
            const notice = decoder.look(row, column);
            if (notice.row !== row || notice.column !== column) throw new Error("the look is of another place");
            if (look(notice) !== BLANK) text += `${row} ${column} ${look(notice)}\n`;
        }
    return text;
}

function flashing(decoder, turns) {
    let text = decoder.flashStart().map((notice) => line(notice, 0)).join("");
    for (let turn = 1; turn <= turns; turn++) text += decoder.flashTurn().map((notice) => line(notice, turn)).join("");
    return text;
}

if (typeof exports !== "undefined") Object.assign(exports, { drawing, line, changes, cells, flashing });
