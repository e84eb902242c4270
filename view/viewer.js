// Joins the parts: pages, the player, the screen, the panels and the controls.
import { UnreadFile, chosen, dropped, embedded, unpacked } from "./files.js";
import { Film, lastGrid, textOfRows } from "./film.js";
import { joinLanguages, onLanguage, word } from "./language.js";
import { markIndex, part, say, showCell, showCounts, showIndex, showRefusals, stateOf, tell } from "./panels.js";
import { OWN_TIME, Player } from "./player.js";
import { Screen, TALL, paintStill } from "./screen.js";
import { COLUMNS, PHASES, ROWS, TextFault, readChanges, readCheck } from "./text.js";

/** @typedef {import("./types.js").Check} Check */
/** @typedef {import("./types.js").Page} Page */
/** @typedef {import("./line.js").Line} Line */

const PHASE_TIME = 1000 / 6;
const SMALL_CELL = 6;
const LEAST_CELL = 6;
const ARROWS = new Map(Object.entries({ ArrowUp: [-1, 0], ArrowDown: [1, 0], ArrowLeft: [0, -1], ArrowRight: [0, 1] }));

/**
 * Says why the text of a page can't be shown; any other fault goes on.
 * @param {string} name
 * @param {unknown} fault
 */
function tellFault(name, fault) {
  if (!(fault instanceof TextFault)) throw fault;
  const { key, values } = fault;
  tell("fault", () => word("of", { name, why: word(key, values) }));
}

/**
 * What a part of an address stands for; a % that no address can have stands for itself.
 * @param {string} text
 */
function nameIn(text) {
  try {
    return decodeURIComponent(text.replace(/%(?![0-9a-f]{2})/gi, "%25"));
  } catch (fault) {
    return text;
  }
}

/**
 * Which of some pages an address means by a name: the one that has it, else one in a folder, or with a suffix; less than 0 is none.
 * @param {Page[]} pages
 * @param {string} name
 */
function pageNamed(pages, name) {
  const whole = pages.findIndex((page) => page.name === name);
  const parts = (/** @type {string} */ path) => [`/${path}`, `/${path.replace(/\.[^./]*$/, "")}`];
  return whole >= 0 ? whole : pages.findIndex((page) => parts(page.name).some((path) => path.endsWith(`/${name}`)));
}

export class Viewer {
  constructor() {
    /** @type {Page[]} */
    this.pages = [];
    /** @type {Page | null} */
    this.page = null;
    // Whether pages of this file are still to come.
    this.awaits = false;
    /** @type {Line | null} */
    this.line = null;
    /** @type {Check | null} */
    this.check = null;
    this.pointed = -1;
    this.screen = new Screen(part("page"), part("outlines"));
    this.player = new Player(() => this.moved(), () => this.rested());
    /** @type {any} */
    this.flashing = 0;
  }

  /**
   * The text of a page as it is read, once for its picture and its film.
   * @param {Page} page
   */
  courseOf(page) {
    const course = page.course || readChanges(page.changes || "");
    page.course = course;
    return course;
  }

  /**
   * The film of a page, made at its first use.
   * @param {Page} page
   */
  filmOf(page) {
    const film = page.film || new Film(this.courseOf(page), page.page, page.flash);
    page.film = film;
    film.times = page.times || null;
    return film;
  }

  /**
   * Says that a page is being read, where pages are to be taken.
   * @param {boolean} isExpected
   */
  expect(isExpected) {
    this.awaits = isExpected;
  }

  /**
   * Takes pages and opens the first, or says what isn't understood.
   * @param {Page[]} pages
   */
  take(pages) {
    this.pages = pages;
    this.awaits = false;
    showIndex(pages, (number) => this.open(number), (page, canvas) => this.small(page, canvas));
    if (pages.length) this.open(0);
  }

  /**
   * What is shown of a page: its film, and what its text of check says.
   * @param {Page} page
   */
  readingOf(page) {
    return { film: this.filmOf(page), check: page.check ? readCheck(page.check) : null };
  }

  /**
   * Takes the texts of one page. Where they aren't understood the pages that are there stay.
   * @param {Page} parts
   */
  takeParts(parts) {
    if (parts.changes === null) return tell("fault", () => word("noChanges"));
    try {
      this.readingOf(parts);
    } catch (fault) {
      return tellFault(parts.name, fault);
    }
    this.take([parts]);
  }

  /**
   * The same once they are read, or says which file can't be.
   * @param {Promise<Page>} reading
   */
  async takeRead(reading) {
    try {
      this.takeParts(await reading);
    } catch (fault) {
      tellFault(fault instanceof UnreadFile ? fault.file : "", fault);
    }
  }

  /** @param {number} number */
  open(number) {
    const page = this.pages[number];
    tell("fault", () => "");
    try {
      this.show(page);
      markIndex(number);
    } catch (fault) {
      tellFault(page.name, fault);
    }
  }

  /**
   * Shows a page, in place of a line too: that is left, and what came over it can still be saved.
   * @param {Page} page
   */
  show(page) {
    const { film, check } = this.readingOf(page);
    if (this.line) this.line.leave();
    this.check = check;
    this.page = page;
    this.pointed = -1;
    this.screen.looks = film.changes.looks;
    this.screen.forget();
    part("bytes").max = film.length;
    this.sayPage();
    this.player.open(film);
    this.offerTime(film.times !== null);
    this.rested();
  }

  /**
   * Offers the time of the page's own where there is one, and takes it.
   * @param {boolean} own
   */
  offerTime(own) {
    part("own-time").hidden = part("own-time").disabled = !own;
    if (own !== (this.player.speed === OWN_TIME)) this.setSpeed(own ? OWN_TIME : 1200);
  }

  /** @param {number} speed */
  setSpeed(speed) {
    part("speed").value = speed;
    this.player.setSpeed(speed);
  }

  /**
   * Shows a line in place of a page, which paints by itself until it ends.
   * @param {Line} line
   */
  watch(line) {
    this.player.close();
    this.page = null;
    this.line = line;
    this.pointed = -1;
    this.flash();
    this.screen.looks = line.looks;
    this.screen.forget();
    this.screen.outline([], -1);
    markIndex(-1);
    this.sayPage();
    tell("fault", () => "");
  }

  // Shows a line no longer.
  unwatch() {
    this.line = null;
  }

  film() {
    return this.player.film;
  }

  // After each move of the film: only cells that differ are painted.
  moved() {
    const film = this.film();
    if (film) this.screen.showFilm(film);
    this.outline();
    if (film) showCounts(film, this.player.come);
    part("bytes").value = this.player.come;
    if (this.player.playing()) this.flash();
    else this.rested();
  }

  // What is told only where nothing plays.
  rested() {
    const film = this.film();
    if (!film) return;
    const state = stateOf(film, this.player.come);
    say("play-word", word(this.player.playing() ? "pause" : "play"));
    say("state", state);
    part("bytes").setAttribute("aria-valuetext", state);
    if (this.pointed >= 0) showCell(film, this.pointed);
    this.text();
    this.flash();
  }

  outline() {
    const film = this.film();
    if (!film) return;
    const [from, to] = film.lastLines();
    const cells = part("outline").checked ? film.changes.cells.subarray(from, to) : [];
    this.screen.outline(cells, this.pointed);
  }

  // Fills the text of the page where that is open. One that stands there already stays, with what is marked in it.
  text() {
    const shown = part("text-part").open ? this.shown() : null;
    const text = shown && textOfRows(shown, part("reveal").checked);
    if (text !== null && text !== part("text").textContent) say("text", text);
  }

  /** @param {number} cell */
  point(cell) {
    const film = this.film();
    if (!film || cell < 0 || cell === this.pointed) return;
    this.pointed = cell;
    showCell(film, cell);
    this.outline();
  }

  // Starts the clock of the flash where something flashes, and ends it where nothing does.
  flash() {
    const film = this.film();
    const wanted = part("flash").checked && film !== null && (film.isTold() ? film.isToldToFlash() : this.screen.flashes());
    if (wanted && !this.flashing) {
      if (this.screen.phase === null) this.turn(0);
      this.flashing = setInterval(() => this.turn(((this.screen.phase || 0) + 1) % PHASES), PHASE_TIME);
    }
    if (!wanted && this.flashing) {
      clearInterval(this.flashing);
      this.flashing = 0;
      this.rest();
    }
  }

  // Shows the first phase; where no flash is wanted each sign as it is seen, so that none stays away.
  rest() {
    this.turn(part("flash").checked ? 0 : null);
  }

  /** @param {number | null} phase */
  turn(phase) {
    this.screen.turn(phase, part("reveal").checked);
    const film = this.film();
    // The clock may go on while another text is opened, and no film is there yet.
    if (film === null) return;
    if (this.screen.told && phase !== null && film.phases) this.screen.show(film.phases[phase]);
    else if (film.isTold()) this.screen.showFilm(film);
  }

  // Lays the screen out for the room that there is, in whole pixels of the display.
  lay() {
    const ratio = window.devicePixelRatio || 1;
    const room = Math.min(part("stage").clientWidth - 2, ((window.innerHeight * 0.8) / ROWS / TALL) * COLUMNS);
    const cell = Math.max(LEAST_CELL, Math.floor((room * ratio) / COLUMNS));
    if (cell !== this.screen.asked || ratio !== this.screen.ratio) this.layAnew(cell, ratio);
  }

  /**
   * @param {number} cell
   * @param {number} ratio
   */
  layAnew(cell, ratio) {
    this.screen.lay(cell, ratio);
    if (this.film()) this.moved();
    else if (this.line) this.line.show();
  }

  /**
   * Whether letters are those of the browser's font.
   * @param {boolean} font
   */
  letters(font) {
    if (font === this.screen.font) return;
    this.screen.font = font;
    this.layAnew(this.screen.asked, this.screen.ratio);
  }

  /**
   * Paints the end of a page into a small canvas of the index.
   * @param {Page} page
   * @param {HTMLCanvasElement} canvas
   */
  small(page, canvas) {
    try {
      const course = this.courseOf(page);
      paintStill(canvas, { looks: course.looks, grid: lastGrid(course) }, SMALL_CELL, 2, false);
    } catch (fault) {
      if (!(fault instanceof TextFault)) throw fault;
    }
  }

  // What is on the screen, or null where nothing was opened.
  shown() {
    const film = this.film();
    if (film) return { looks: film.changes.looks, grid: film.grid };
    return this.line && this.line.seen();
  }

  async copy() {
    const shown = this.shown();
    if (!shown) return say("state", word("noPage"));
    const text = textOfRows(shown, part("reveal").checked);
    part("text-part").open = true;
    say("text", text);
    const selection = window.getSelection();
    if (selection) selection.selectAllChildren(part("text"));
    const copied = navigator.clipboard
      ? await navigator.clipboard.writeText(text).then(() => true, () => document.execCommand("copy"))
      : document.execCommand("copy");
    say("state", word(copied ? "copied" : "selected"));
  }

  save() {
    if (!this.shown()) return say("state", word("noPage"));
    const name = this.page ? this.page.name : "line";
    part("page").toBlob((/** @type {Blob} */ blob) => {
      const link = document.createElement("a");
      link.href = URL.createObjectURL(blob);
      link.download = `${name}.png`;
      link.click();
      setTimeout(() => URL.revokeObjectURL(link.href), 1000);
      say("state", word("saved"));
    });
  }

  // Says what the page is, until something in it is pointed at; or the line.
  sayPage() {
    if (this.line) return this.line.tell();
    say("name", this.page ? this.page.name : word(this.awaits ? "reading" : "noPage"));
    if (this.pointed < 0) {
      say("cell-line", word("pointAt"));
      say("cell-bytes", "");
    }
    if (this.page) showRefusals(this.filmOf(this.page), this.check, this.page.name);
    else say("refusals-count", "");
  }

  // Says all again in another language.
  speak() {
    this.sayPage();
    const film = this.film();
    if (film) showCounts(film, this.player.come);
    say("play-word", word(this.player.playing() ? "pause" : "play"));
    this.rested();
  }

  // Goes where the address points: #page@byte, or #page for its end.
  follow() {
    const found = /^#(.+?)(?:@(\d+))?$/.exec(window.location.hash);
    if (!found || !this.pages.length) return;
    const name = nameIn(found[1]);
    const number = pageNamed(this.pages, name);
    if (number < 0) return tell("fault", () => word("of", { name, why: word("notHere") }));
    if (this.pages[number] !== this.page) this.open(number);
    if (found[2]) this.player.toBytes(Number(found[2]) + 1);
    else this.player.toEnd();
  }
}

export const viewer = new Viewer();

/**
 * Which keys do what; letters only where they are on.
 * @returns {Record<string, () => void>}
 */
function keysOf() {
  /** @type {(id: string) => () => void} */
  const click = (id) => () => part(id).click();
  /** @type {(value: string) => () => void} */
  const speed = (value) => () => {
    part("speed").value = value;
    part("speed").dispatchEvent(new Event("change"));
  };
  return {
    p: click("play"), ".": click("forward"), ",": click("back"), o: click("outline"), r: click("reveal"), f: click("flash"),
    c: click("copy"), s: click("save"), 1: speed("1200"), 2: speed("2400"), 9: speed("9600"), 0: speed("0"),
    Home: click("first"), End: click("last"),
  };
}

/**
 * @param {Record<string, () => void>} keys
 * @param {KeyboardEvent} event
 */
function onKey(keys, event) {
  const typing = event.target instanceof Element && event.target.matches("textarea, select, input:not([type=checkbox])");
  const letter = event.key.length === 1;
  if (typing || event.ctrlKey || event.altKey || event.metaKey || (letter && !part("letters").checked)) return;
  if (!Object.hasOwn(keys, event.key)) return;
  event.preventDefault();
  keys[event.key]();
}

/**
 * The arrow keys on the screen point at the cell beside.
 * @param {KeyboardEvent} event
 */
function onArrow(event) {
  const [down, right] = ARROWS.get(event.key) || [0, 0];
  if (!down && !right) return;
  event.preventDefault();
  const cell = viewer.pointed < 0 ? 0 : viewer.pointed;
  const row = Math.min(ROWS - 1, Math.max(0, Math.floor(cell / COLUMNS) + down));
  const column = Math.min(COLUMNS - 1, Math.max(0, (cell % COLUMNS) + right));
  viewer.point(viewer.pointed < 0 ? 0 : row * COLUMNS + column);
  say("state", part("cell-line").textContent);
}

/**
 * Follows a link to what the address has already, since then no change of the address tells of it.
 * @param {Event} event
 */
function onLink({ target }) {
  if (target instanceof HTMLAnchorElement && target.hash === window.location.hash) viewer.follow();
}

function joinControls() {
  const { player } = viewer;
  /** @type {(id: string, kind: string, act: (event: any) => void) => void} */
  const on = (id, kind, act) => part(id).addEventListener(kind, act);
  on("first", "click", () => player.toStart());
  on("back", "click", () => player.step(-1));
  on("forward", "click", () => player.step(1));
  on("last", "click", () => player.toEnd());
  on("play", "click", () => {
    if (player.playing()) player.pause();
    else player.play();
    viewer.rested();
  });
  on("bytes", "input", () => player.toBytes(Number(part("bytes").value)));
  on("speed", "change", () => player.setSpeed(Number(part("speed").value)));
  on("outline", "change", () => viewer.film() && viewer.outline());
  on("flash", "change", () => {
    viewer.flash();
    if (!viewer.flashing) viewer.rest();
    if (viewer.line) viewer.line.flash();
  });
  on("reveal", "change", () => {
    viewer.turn(viewer.screen.phase);
    viewer.text();
  });
  on("font", "change", () => viewer.letters(part("font").checked));
  on("text-part", "toggle", () => viewer.text());
  on("copy", "click", () => viewer.copy());
  on("save", "click", () => viewer.save());
  on("screen", "mousemove", (event) => viewer.point(viewer.screen.cellAt(event.clientX, event.clientY)));
  on("screen", "click", (event) => viewer.point(viewer.screen.cellAt(event.clientX, event.clientY)));
  on("screen", "keydown", (event) => onArrow(event));
  on("refusals", "click", onLink);
  const keys = keysOf();
  document.addEventListener("keydown", (event) => onKey(keys, event));
  // A browser that goes back to a page gives the controls back as they were left, and doesn't say so.
  window.addEventListener("pageshow", () => {
    for (const id of ["speed", "outline", "reveal", "font", "flash"]) part(id).dispatchEvent(new Event("change"));
  });
}

function joinFiles() {
  part("open").addEventListener("submit", (/** @type {Event} */ event) => {
    event.preventDefault();
    viewer.takeRead(chosen());
  });
  document.addEventListener("dragover", (event) => {
    event.preventDefault();
    document.body.classList.add("dropping");
  });
  document.addEventListener("dragleave", () => document.body.classList.remove("dropping"));
  document.addEventListener("drop", (event) => {
    event.preventDefault();
    document.body.classList.remove("dropping");
    const files = event.dataTransfer ? event.dataTransfer.files : null;
    if (files && files.length) viewer.takeRead(dropped(files));
  });
}

/**
 * Calls back whenever the display has another number of pixels to one of the page, as by zooming.
 * @param {() => void} act
 */
function onDensity(act) {
  const now = window.matchMedia(`(resolution: ${window.devicePixelRatio}dppx)`);
  now.addEventListener("change", () => { act(); onDensity(act); }, { once: true });
}

async function begin() {
  const inside = embedded();
  viewer.expect(inside.length > 0);
  part("flash").checked = !window.matchMedia("(prefers-reduced-motion: reduce)").matches;
  joinControls();
  joinFiles();
  onLanguage(() => viewer.speak());
  joinLanguages(part("language"));
  viewer.lay();
  viewer.rest();
  window.addEventListener("resize", () => viewer.lay());
  onDensity(() => viewer.lay());
  window.addEventListener("hashchange", () => viewer.follow());
  viewer.take(await unpacked(inside).catch((fault) => {
    viewer.expect(false);
    viewer.sayPage();
    tellFault(inside[0].name, fault);
    return [];
  }));
  viewer.follow();
  part("open-part").open = !viewer.pages.length;
}

export const begun = begin();
