// Answers calls of the module under Node: node answers.js MODULE. Each line of the input is a call as JSON, with its files named; the
// line that answers it has the status, and length and SHA-256 of the text.
"use strict";
const crypto = require("crypto");
const fs = require("fs");
const path = require("path");
const readline = require("readline");
const { run } = require(path.join(__dirname, "..", "tamligub.js"));

const module_ = new WebAssembly.Module(fs.readFileSync(process.argv[2]));
const read = (name) => (name === null ? undefined : new Uint8Array(fs.readFileSync(name)));

readline.createInterface({ input: process.stdin }).on("line", (line) => {
    const { word, page, script, number } = JSON.parse(line);
    const { status, text } = run(module_, word, { page: read(page), script: read(script), number: number ?? undefined });
    console.log(JSON.stringify([status, text.length, crypto.createHash("sha256").update(text).digest("hex")]));
});
