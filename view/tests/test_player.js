// Playing at the speed of a line and in a recording's own time, by a clock that the test turns.
import assert from "node:assert";
import { test } from "node:test";
import { pages } from "./stub.js";
import "./clock.js";
import { Film } from "../film.js";
import { OWN_TIME, Player } from "../player.js";
import { readChanges } from "../text.js";

const { clock } = globalThis;
// In milliseconds: the time from one picture of a display to the next.
const FRAME = 1000 / 60;

// A player with a film, and how often it has told that it moved and that it ended.
function playerOf(changes, length, times = null) {
  const told = { moved: 0, ended: 0 };
  const player = new Player(() => told.moved++, () => told.ended++);
  const film = new Film(readChanges(changes), new Uint8Array(length));
  film.times = times;
  player.open(film);
  player.toStart();
  return { player, film, told };
}

// Plays a millisecond at a time: how many moments have come after each, and how many timers were due in all.
function played({ player, film }) {
  const come = [];
  let due = 0;
  player.play();
  while (player.playing()) {
    due += clock.turn(1);
    come.push(film.moment);
  }
  return { come, due };
}

// Each moment comes with its byte, of ten bits: not before, and no later than a display shows the next of sixty pictures a second.
function isInTime({ come, due }, places, length, bits) {
  const within = (after) => places.filter((place) => (place + 1) * 10000 <= bits * after + 1e-6).length;
  come.forEach((moments, at) => {
    const [least, most] = [within(at + 1 - FRAME), within(at + 1)];
    assert.ok(least <= moments && moments <= most, `${bits} bit/s: after ${at + 1} ms ${moments} moments have come, not ${least} to ${most}`);
  });
  const end = (length * 10000) / bits;
  assert.ok(end <= come.length && come.length <= end + FRAME + 1, `${bits} bit/s: it ended after ${come.length} ms, not ${end}`);
  // One for each moment, and one for the end.
  assert.ok(due <= places.length + 1, `${bits} bit/s: ${due} timers for ${places.length} moments`);
  assert.strictEqual(clock.waiting(), 0, "a timer waits after the end");
}

test("pages play at the speed of the line", () => {
  const { changes, length } = pages.title;
  const places = [...new Set(changes.split("\n").slice(0, -1).map((line) => Number(line.split(" ")[line[0] === "!" ? 1 : 0])))];
  for (const bits of [1200, 2400, 9600]) {
    const one = playerOf(changes, length);
    one.player.setSpeed(bits);
    isInTime(played(one), places, length, bits);
    assert.strictEqual(one.player.come, length);
  }
});

test("nothing runs between commands", () => {
  const one = playerOf("0 1 1 P41 11.00 FFF 000 S---\n61 1 2 P42 11.00 FFF 000 S---\n", 62);
  isInTime(played(one), [0, 61], 62, 1200);
});

test("it pauses, goes on, and begins anew at the end", () => {
  const { changes, length } = pages.title;
  const { player, film, told } = playerOf(changes, length);
  player.setSpeed(9600);
  player.play();
  clock.turn(100);
  const come = film.moment;
  player.pause();
  assert.deepStrictEqual([player.playing(), told.ended, clock.waiting()], [false, 1, 0]);
  clock.turn(1000);
  assert.strictEqual(film.moment, come);
  player.play();
  clock.turn(length * 10);
  assert.deepStrictEqual([film.moment, player.playing()], [film.moments.length, false]);
  player.play();
  assert.deepStrictEqual([film.moment, player.playing()], [0, true]);
  player.close();
  assert.deepStrictEqual([player.film, clock.waiting()], [null, 0]);
});

test("a recording plays in its own time, and bytes of which no time is known come with the last", () => {
  const line = (at) => `${at} 1 ${at + 1} P41 11.00 FFF 000 S---\n`;
  const one = playerOf(Array.from({ length: 11 }, (_, at) => line(at)).join(""), 11, [[40, 3], [60, 0], [300, 2], [1000, 5]]);
  one.player.setSpeed(OWN_TIME);
  const { come, due } = played(one);
  const turns = [...new Set(come)].filter((moment) => moment).map((moment) => [moment, come.indexOf(moment) + 1]);
  assert.deepStrictEqual(turns.map(([moment]) => moment), [3, 5, 11]);
  turns.forEach(([moment, turn], at) => {
    const when = [40, 300, 1000][at];
    assert.ok(when <= turn && turn <= when + FRAME, `${moment} moments after ${turn} ms`);
  });
  assert.deepStrictEqual([one.player.come, due], [11, 3]);
});
