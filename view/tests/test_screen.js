// Cells in dots on a canvas, and which of them a step of a film paints.
import assert from "node:assert";
import { test } from "node:test";
import { Canvas, element, pages } from "./stub.js";
import { DOTS, paintsOf } from "../dots.js";
import { Film } from "../film.js";
import { Painter } from "../paint.js";
import { showCounts } from "../panels.js";
import { Screen } from "../screen.js";
import { COLUMNS, readCells, readChanges, readLook } from "../text.js";

const PICTURE = ["#3A4A5E", "#62788F"];

// A screen of cells so many pixels wide, with its canvas.
function screenOf(film, asked = 12) {
  const canvas = new Canvas();
  const screen = new Screen(canvas, new Canvas());
  screen.looks = film.changes.looks;
  screen.lay(asked, 1);
  return { canvas, screen };
}

const filmOf = (page) => new Film(readChanges(page.changes), null);

// Place, and number of lines, of each command that changes cells and each refusal.
function momentsOf(changes) {
  const moments = [];
  for (const line of changes.split("\n").slice(0, -1)) {
    const refused = line[0] === "!";
    const place = Number(line.split(" ")[refused ? 1 : 0]);
    if (!moments.length || moments[moments.length - 1].place !== place) moments.push({ place, lines: 0 });
    moments[moments.length - 1].lines += refused ? 0 : 1;
  }
  return moments;
}

test("each dot of a cell has its colour, whatever pixels a cell has, and none is painted twice", () => {
  const looks = new Set(["title", "signs", "flashing", "patterns"].flatMap((name) => readCells(pages[name].cells).looks.map(({ text }) => text)));
  for (const [width, height] of [[12, 10], [12, 15], [15, 19], [27, 34]]) {
    const canvas = new Canvas();
    Object.assign(canvas, { width: 2 * width, height: 2 * height });
    const painter = new Painter(canvas, width, height);
    const middle = (dot, dots, length) => Math.floor((Math.round((dot * length) / dots) + Math.round(((dot + 1) * length) / dots)) / 2);
    for (const look of [...looks].map(readLook)) {
      const before = canvas.painted;
      canvas.ready().fill(0);
      painter.cell(look, width, height, 0, false);
      assert.strictEqual(canvas.painted - before, width * height, look.text);
      paintsOf(look, 0, false).forEach((paint, dot) => {
        const [x, y] = [dot % DOTS.WIDTH, Math.floor(dot / DOTS.WIDTH)];
        const wanted = paint === "---" ? PICTURE[(x < 6) !== (y < 5) ? 1 : 0] : `#${paint}`;
        const found = canvas.colourAt(width + middle(x, DOTS.WIDTH, width), height + middle(y, DOTS.HEIGHT, height));
        assert.strictEqual(found, wanted, `${look.text}, dot ${x} ${y} of ${width} by ${height}`);
      });
      assert.ok([[0, 0], [width - 1, height], [width, height - 1]].every(([x, y]) => canvas.colourAt(x, y) === ""), `${look.text}: outside`);
    }
  }
});

test("each command repaints its cells alone, and they are counted", () => {
  for (const [name, page] of Object.entries(pages)) {
    const film = filmOf(page);
    const { screen } = screenOf(film);
    screen.showFilm(film);
    const moments = momentsOf(page.changes);
    assert.strictEqual(film.moments.length, moments.length, name);
    let total = 0;
    moments.forEach(({ place, lines }, at) => {
      film.go(at + 1);
      const before = screen.painted;
      screen.showFilm(film);
      total += lines;
      assert.deepStrictEqual([film.bytesCome(), screen.painted - before], [place + 1, lines], `${name}, step ${at + 1}`);
      showCounts(film, film.bytesCome());
      const told = ["last", "all", "whole"].map((one) => element(`count-${one}`).textContent);
      const grouped = (number) => number.toLocaleString("en");
      assert.deepStrictEqual(told, [`${lines} of 960 cells`, grouped(total), grouped(960 * (at + 1))], `${name}, step ${at + 1}`);
    });
  }
});

test("back is as forward and as a whole repaint", () => {
  for (const name of ["hold", "title"]) {
    const film = filmOf(pages[name]);
    const { canvas, screen } = screenOf(film);
    const shown = (moment) => {
      film.go(moment);
      screen.showFilm(film);
      return canvas.ready();
    };
    const count = film.moments.length;
    const forward = Array.from({ length: count + 1 }, (_, moment) => shown(moment).slice());
    for (let moment = count; moment >= 0; moment--) {
      assert.ok(Buffer.from(shown(moment).buffer).equals(Buffer.from(forward[moment].buffer)), `${name}, back at ${moment}`);
      if (moment % 9) continue;
      const whole = screenOf(film);
      assert.strictEqual(whole.screen.show(film.grid), 960);
      assert.ok(Buffer.from(whole.canvas.ready().buffer).equals(Buffer.from(forward[moment].buffer)), `${name}, whole at ${moment}`);
    }
  }
});

test("a screen is laid out in whole pixels for four dots", () => {
  const film = filmOf(pages.title);
  for (const [asked, width, height] of [[6, 12, 15], [12, 12, 15], [14, 12, 15], [15, 15, 19], [26, 24, 30]]) {
    const { canvas, screen } = screenOf(film, asked);
    assert.deepStrictEqual([screen.cellWidth, screen.cellHeight, canvas.width], [width, height, width * COLUMNS], String(asked));
  }
});
