// What the browser's storage has of the editors that were open: an unsaved page outlasts a crash.

// The names in the storage: of each editor that is open its page and its script.
const STORE = /^tamligub\.editor\.(\w+)\.script$/;
// The language, as the viewer keeps it too.
const LANGUAGE = "tamligub-language";
const TAB = "tamligub-editor";
/** @type {(editor: string) => string} */
const pageName = (editor) => `tamligub.editor.${editor}.page`;
/** @type {(editor: string) => string} */
const scriptName = (editor) => `tamligub.editor.${editor}.script`;

/**
 * What isn't in the script yet: the lines of a drawing, and a sign that was painted.
 * @typedef {{ drawing: string, painted: import("./pattern.js").Painted | null }} UnderWay
 */

/**
 * What an editor has: the name of a page with its bytes and the cuts that were made in it; a script, the script that was saved last, and whether
 * that was saved of another stored page; and what isn't in the script yet.
 * @typedef {{ name: string, page: Uint8Array, cuts: import("./cuts.js").Stored[], script: string, saved: string, isOther: boolean } & UnderWay} Kept
 */

/**
 * The language that was chosen last, or is chosen now; null where the browser keeps none.
 * @param {string} [chosen]
 */
export function chosenLanguage(chosen) {
  try {
    if (chosen) localStorage.setItem(LANGUAGE, chosen);
    return localStorage.getItem(LANGUAGE);
  } catch {
    return null;
  }
}

/**
 * Whether something is drawn or painted that isn't in the script yet.
 * @param {UnderWay} underWay
 */
export const isBegun = ({ drawing, painted }) => drawing !== "" || painted !== null;

/**
 * Bytes as letters of base 64.
 * @param {Uint8Array} bytes
 * @returns {string}
 */
export function toLetters(bytes) {
  let letters = "";
  for (let at = 0; at < bytes.length; at += 4096) letters += String.fromCharCode(...bytes.subarray(at, at + 4096));
  return btoa(letters);
}

/**
 * @param {string} letters
 * @returns {Uint8Array}
 */
export const fromLetters = (letters) => Uint8Array.from(atob(letters), (sign) => sign.charCodeAt(0));

export class Store {
  /**
   * What gives the storage, the locks that editors hold as long as they are open, where the browser has them, and what outlasts a reload of
   * this tab alone. It may refuse each.
   * @param {() => Storage} storage
   * @param {Pick<LockManager, "request"> | undefined} locks
   * @param {() => Storage} tab
   */
  constructor(storage, locks, tab) {
    this.storage = storage;
    this.locks = locks;
    this.tab = tab;
    this.id = "one";
    // Whether the storage has the page of the script that is put next.
    this.hasPage = false;
  }

  /**
   * Keeps a page; where that fails the storage has none, since the one before belongs to another script.
   * @param {Pick<Kept, "name" | "page" | "cuts">} kept
   */
  putPage({ name, page, cuts }) {
    const before = cuts.map((cut) => ({ ...cut, page: toLetters(cut.page) }));
    this.hasPage = false;
    try {
      this.storage().setItem(pageName(this.id), JSON.stringify({ name, page: toLetters(page), cuts: before }));
      this.hasPage = true;
    } finally {
      if (!this.hasPage) this.storage().removeItem(pageName(this.id));
    }
  }

  /**
   * Keeps a script, and the page where it is another or isn't kept yet. Answers whether both are kept. A page whose script finds no room goes
   * again, since the script that the storage has belongs to another.
   * @param {Kept} kept
   * @param {boolean} pageToo
   */
  put({ name, page, cuts, ...rest }, pageToo) {
    const isOther = pageToo || !this.hasPage;
    try {
      if (isOther) this.putPage({ name, page, cuts });
      this.storage().setItem(scriptName(this.id), JSON.stringify({ ...rest, time: Date.now() }));
      return true;
    } catch (fault) {
      if (isOther && this.hasPage) this.dropPage();
      return false;
    }
  }

  dropPage() {
    this.storage().removeItem(pageName(this.id));
    this.hasPage = false;
  }

  /**
   * What the storage has of an editor, or null where it is nothing that was left unsaved.
   * @param {string} id
   * @returns {(Kept & { id: string, time: number }) | null}
   */
  of(id) {
    try {
      const { name, page, cuts = [] } = JSON.parse(this.storage().getItem(pageName(id)) || "");
      const { isOther = false, drawing = "", painted = null, ...rest } = JSON.parse(this.storage().getItem(scriptName(id)) || "");
      if (rest.script === rest.saved && !isOther && !isBegun({ drawing, painted })) return null;
      const before = cuts.map((/** @type {any} */ cut) => ({ ...cut, page: fromLetters(cut.page) }));
      return { id, name, page: fromLetters(page), cuts: before, isOther, drawing, painted, ...rest };
    } catch (fault) {
      return null;
    }
  }

  /**
   * The editors of which the storage has something.
   * @returns {string[]}
   */
  ids() {
    try {
      return Object.keys(this.storage()).flatMap((key) => (STORE.exec(key) || []).slice(1));
    } catch (fault) {
      return [];
    }
  }

  /**
   * Does something under the lock of an editor, which is held until that ends; not where another has it. Answers whether it is done. Where
   * there are no locks it is.
   * @param {string} id
   * @param {() => void | Promise<void>} act
   * @returns {Promise<boolean>}
   */
  locked(id, act) {
    const { locks } = this;
    return new Promise((done) => {
      /** @type {(lock: unknown) => void | Promise<void>} */
      const begin = (lock) => {
        done(Boolean(lock));
        return lock ? act() : undefined;
      };
      if (locks) locks.request(scriptName(id), { ifAvailable: true }, begin).catch(() => begin(true));
      else begin(true);
    });
  }

  /**
   * Holds the lock of an editor as long as this one is open. Answers whether it has it.
   * @param {string} id
   */
  holds(id) {
    return this.locked(id, () => new Promise(() => {}));
  }

  /**
   * The editor that was in this tab before a reload, or null; and that this one is now.
   * @param {string} [id]
   */
  inTab(id) {
    try {
      if (id !== undefined) this.tab().setItem(TAB, id);
      return this.tab().getItem(TAB);
    } catch (fault) {
      return null;
    }
  }

  /**
   * The page that was left unsaved in this tab, or last in any that isn't open any more, or null; this editor goes on in its place. What
   * such editors left that was saved goes.
   * @returns {Promise<Kept | null>}
   */
  async taken() {
    const ids = this.ids();
    const before = this.inTab();
    const rank = (/** @type {{ id: string, time: number }} */ { id, time }) => (id === before ? Infinity : time);
    const unsaved = ids.flatMap((id) => this.of(id) || []).sort((one, other) => rank(other) - rank(one));
    await Promise.all(ids.map((id) => unsaved.some((one) => one.id === id) || this.locked(id, () => this.drop(id))));
    for (const { id } of unsaved) {
      // Under the lock it is read again: another editor may have ended meanwhile.
      const kept = (await this.holds(id)) ? this.of(id) : null;
      if (!kept) continue;
      this.id = id;
      this.inTab(id);
      return kept;
    }
    this.id = Math.random().toString(36).slice(2);
    this.inTab(this.id);
    await this.holds(this.id);
    return null;
  }

  /**
   * Takes what an editor left out of the storage, where that was saved.
   * @param {string} id
   */
  drop(id) {
    if (this.of(id)) return;
    this.storage().removeItem(pageName(id));
    this.storage().removeItem(scriptName(id));
  }
}
