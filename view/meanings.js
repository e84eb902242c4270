// What the report of an archive says of a page, which it says in English, in the language that is shown.
/** @type {Record<string, string>} */
const GERMAN = {
  "can't be read": "nicht lesbar", "this folder can't be read": "dieser Ordner ist nicht lesbar",
  "no such file": "keine solche Datei", "no such file or directory": "keine solche Datei", "it is no plain file": "keine gewöhnliche Datei",
  "permission denied": "keine Berechtigung", "file name too long": "der Name ist zu lang",
  "too many levels of symbolic links": "zu viele Links hintereinander", "input/output error": "Fehler beim Lesen",
  "too long": "zu lang", "more than 16,777,216 bytes": "mehr als 16.777.216 Bytes", "not enough memory": "zu wenig Speicher",
  "not made": "nicht gemacht", "its name is too long for a file of an archive": "der Name ist zu lang für eine Datei eines Archivs",
  "its name is none for the file system of the website": "ein Dateisystem wie das der Website hat keinen solchen Namen",
  "another page has its place": "eine andere Seite hat ihren Platz",
  "no longer in the collection": "nicht mehr in der Sammlung", "its folder can't be read now": "ihr Ordner ist jetzt nicht lesbar",
};
const ENDED = "the program ended with status ";

/** @param {string} part */
function germanOf(part) {
  return part.startsWith(ENDED) ? `das Programm endete mit Status ${part.slice(ENDED.length)}` : GERMAN[part] || part;
}

/**
 * A meaning, part by part; a part that isn't known, as what the system of another machine said, stays as it is.
 * @param {string} meaning
 * @param {string} language
 */
export const meaningIn = (meaning, language) => (language === "de" ? meaning.split(/(: |; )/).map(germanOf).join("") : meaning);
