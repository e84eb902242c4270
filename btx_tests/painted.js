// Puts the colour of each dot as the viewer paints it, under Node: node painted.js CELLS, where CELLS is a file of JSON that has looks,
// each with a phase and whether what is concealed is shown. A line for each: its dots, in three or six digits.
"use strict";
const fs = require("node:fs");
const path = require("node:path");
const { pathToFileURL } = require("node:url");

const view = (name) => import(pathToFileURL(path.join(path.dirname(__dirname), "view", name)));

// The dots of a cell; where runs leave one out or paint one twice it isn't the cell's 120.
function dotsOf(runs) {
  const dots = [];
  for (const { colour, line, start, end } of runs) {
    for (let column = start; column < end; column++) dots[12 * line + column] = colour.slice(1);
  }
  return dots.join(" ");
}

async function main() {
  const [{ readLook }, { runsOf }] = [await view("text.js"), await view("dots.js")];
  const wanted = JSON.parse(fs.readFileSync(process.argv[2], "utf8"));
  const lines = wanted.map(([text, phase, revealed]) => dotsOf(runsOf(readLook(text), phase, revealed)));
  process.stdout.write(lines.join("\n") + "\n");
}

main();
