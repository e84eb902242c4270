// Plays a film at the speed of a line, or in its own time: a moment comes when the byte at its place has come. Between moments nothing
// runs.
import { BITS_OF_A_BYTE } from "./film.js";

/** @typedef {import("./film.js").Film} Film */

const LEAST_WAIT = 15;
// The speed of a film that plays in its own time.
export const OWN_TIME = -1;

// A line of so many bits a second: how many bytes have come after some milliseconds, and when so many have.
class Steady {
  /** @param {number} speed */
  constructor(speed) {
    this.each = speed / (1000 * BITS_OF_A_BYTE);
  }

  /** @param {number} milliseconds */
  bytes(milliseconds) {
    return Math.floor(milliseconds * this.each + 1e-6);
  }

  /** @param {number} bytes */
  when(bytes) {
    return bytes / this.each;
  }
}

// The same of a recording, of its pieces, each milliseconds and a length. Bytes of which no time is known come with the last piece.
export class Recorded {
  /** @param {number[][]} pieces */
  constructor(pieces) {
    let end = 0;
    this.pieces = pieces.map(([when, length]) => ({ when, end: (end += length) }));
  }

  /** @param {number} milliseconds */
  bytes(milliseconds) {
    const come = this.pieces.filter(({ when }) => when <= milliseconds + 1e-6);
    return come.length === this.pieces.length ? Infinity : come.length ? come[come.length - 1].end : 0;
  }

  /** @param {number} bytes */
  when(bytes) {
    const piece = this.pieces.find(({ end }) => bytes <= end) || this.pieces[this.pieces.length - 1];
    return bytes && piece ? piece.when : 0;
  }
}

export class Player {
  /**
   * `moved` is called after each move of the film, `ended` when playing stops.
   * @param {() => void} moved
   * @param {() => void} ended
   */
  constructor(moved, ended) {
    this.moved = moved;
    this.ended = ended;
    /** @type {Film | null} */
    this.film = null;
    /** @type {Steady | Recorded | null} */
    this.clock = null;
    this.begun = 0;
    this.come = 0;
    this.speed = 1200;
    /** @type {any} */
    this.timer = 0;
  }

  /** @param {Film} film */
  open(film) {
    this.pause();
    this.film = film;
    this.toEnd();
  }

  // Has no film.
  close() {
    this.pause();
    this.film = null;
  }

  playing() {
    return this.timer !== 0;
  }

  pause() {
    if (!this.timer) return;
    clearTimeout(this.timer);
    this.timer = 0;
    this.ended();
  }

  play() {
    if (!this.film || this.playing()) return;
    if (this.film.moment === this.film.moments.length) this.jump(0, 0);
    this.resume();
  }

  // When bytes come; null where they come at once.
  line() {
    if (this.speed === OWN_TIME) return new Recorded((this.film && this.film.times) || []);
    return this.speed ? new Steady(this.speed) : null;
  }

  // Begins to count the time from now on, from the bytes that have come.
  resume() {
    this.clock = this.line();
    this.begun = performance.now() - (this.clock ? this.clock.when(this.come) : 0);
    this.wait();
  }

  /** @param {number} speed */
  setSpeed(speed) {
    const playing = this.playing();
    clearTimeout(this.timer);
    this.timer = 0;
    this.speed = speed;
    if (playing) this.resume();
  }

  // Sets the clock for the next moment.
  wait() {
    const film = /** @type {Film} */ (this.film);
    const next = film.moment < film.moments.length ? film.moments[film.moment].place + 1 : film.length;
    const due = this.clock ? this.clock.when(next) - (performance.now() - this.begun) : 0;
    this.timer = setTimeout(() => this.tick(), Math.max(due, LEAST_WAIT));
  }

  tick() {
    const film = /** @type {Film} */ (this.film);
    const whole = Math.min(film.length, this.clock ? this.clock.bytes(performance.now() - this.begun) : film.length);
    this.jump(film.momentsWithin(whole), whole);
    if (whole < film.length) this.wait();
    else this.pause();
  }

  /**
   * @param {number} moment
   * @param {number} bytes
   */
  jump(moment, bytes) {
    if (this.film) this.film.go(moment);
    this.come = bytes;
    this.moved();
  }

  /**
   * One moment forward or back.
   * @param {number} by
   */
  step(by) {
    if (!this.film) return;
    this.pause();
    this.film.go(this.film.moment + by);
    this.come = this.film.bytesCome();
    this.moved();
  }

  /** @param {number} bytes */
  toBytes(bytes) {
    if (!this.film) return;
    this.pause();
    const come = Math.min(bytes, this.film.length);
    this.jump(this.film.momentsWithin(come), come);
  }

  toStart() {
    this.toBytes(0);
  }

  toEnd() {
    if (this.film) this.toBytes(this.film.length);
  }
}
