// What stands beside the modules, under the one name Tamligub, to which they add what they export: what calls the program, and what the
// files of an archive say. Not each page has all of it, so each is asked for when it is needed.

/** @typedef {import("./types.js").Beside} Beside */

/** @returns {Beside} */
export const beside = () => /** @type {any} */ (globalThis).Tamligub || {};
/**
 * The bytes that letters of base64 stand for.
 * @param {string} letters
 */
export const bytesIn = (letters) => Uint8Array.from(atob(letters), (sign) => sign.charCodeAt(0));
/**
 * The text of bytes.
 * @param {Uint8Array} bytes
 */
export const textOf = (bytes) => new TextDecoder("utf-8").decode(bytes);
