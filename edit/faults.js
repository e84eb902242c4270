// How the program ends without an answer.

const FAULT = /^script line ([1-9]\d*): (\d+) ([A-Za-z]+)\n$/;

// The program ended without what was asked for.
export class AskFault extends Error {
  /**
   * @param {string} word
   * @param {number} status
   */
  constructor(word, status) {
    super(`${word}: ${status}`);
    this.status = status;
  }
}

// A line that is outside the grammar of scripts or drawings, by the program's own words.
export class BadLine extends Error {
  /** @param {string} text */
  constructor(text) {
    super(text.trim());
    const found = FAULT.exec(text) || ["", "0", "0", ""];
    this.line = Number(found[1]);
    this.number = Number(found[2]);
    this.name = found[3];
  }

  /**
   * The same after some lines more.
   * @param {number} lines
   * @returns {BadLine}
   */
  after(lines) {
    this.line += lines;
    return this;
  }
}
