// Makes the lines of scripts on decoders of the module under Node, and puts what the program in lines.c puts. library/test_lines runs it.
//
//   node lines.js MODULE PAGE SCRIPT..
"use strict";
const fs = require("fs");
const path = require("path");
const { Decoder, BadLine } = require(path.join(__dirname, "..", "tamligub.js"));
const { line } = require(path.join(__dirname, "notices.js"));

const REASONS = ["UnknownWord", "WrongCount", "BadNumber", "BadText", "BadHex", "BadBytes"];
const out = [];

function say(name, text) {
    const bytes = Buffer.from(text);
    out.push(Buffer.from(`${name} ${bytes.length}\n`), bytes);
}

// What a line says, and whether the next may follow.
function made(decoder, bytes, number) {
    try {
        const notices = decoder.line(bytes);
        if (notices) return [notices.map((notice) => line(notice, number)).join(""), true];
        return [bytes.length === 0 || bytes[0] === 0x23 ? "" : `${number} nothing\n`, true];
    } catch (fault) {
        if (!(fault instanceof BadLine)) throw fault;
        return [`script line ${number}: ${fault.reason} ${REASONS[fault.reason - 1]}\n`, false];
    }
}

// The lines of a script, without their ends; of a last one without bytes there is none.
function linesOf(script) {
    const lines = [];
    for (let from = 0; from < script.length; ) {
        const end = script.indexOf(0x0a, from);
        lines.push(script.subarray(from, end < 0 ? script.length : end));
        from = end < 0 ? script.length : end + 1;
    }
    return lines;
}

const [, , name, ...paths] = process.argv;
const instance = new WebAssembly.Instance(new WebAssembly.Module(fs.readFileSync(name)));
for (let at = 0; at + 1 < paths.length; at += 2) {
    const [page, script] = paths.slice(at, at + 2).map((file) => new Uint8Array(fs.readFileSync(file)));
    const decoder = new Decoder(instance);
    decoder.skim(page);
    decoder.finish();
    let said = "";
    linesOf(script).every((bytes, at) => {
        const [text, goesOn] = made(decoder, bytes, at + 1);
        said += text;
        return goesOn;
    });
    say("lines", said);
    say("write", decoder.write());
    say("counts", `${decoder.kept()} ${decoder.undone()}`);
    decoder.close();
}
const all = Buffer.concat(out);
for (let put = 0; put < all.length; ) put += fs.writeSync(1, all, put);
