// The words of the viewer and of an archive's index, in a table for each language.
const GERMAN = {
  language: "Sprache",
  // The index of an archive, and what leads from page to page.
  archive: "Archiv von Bildschirmtext-Seiten", search: "Suchen", searched: "in Namen und Texten", show: "Zeigen",
  all: "alle Seiten", whole: "nichts abgewiesen", refused: "mit abgewiesenen Elementen", unread: "nicht gelesen", alike: "gleiche Bildschirme",
  by: "nach", byName: "Name", byBytes: "Größe, größte zuerst", byRefused: "abgewiesenen Elementen, meiste zuerst",
  folders: "Ordner", allFolders: "alle Ordner", count: "{some} von {all} Seiten", unreadFolders: "nicht gelesene Ordner: {some}",
  bytes: "{bytes} Bytes", status: "Status {status}",
  items: "{refused} von {items} Elementen abgewiesen", same: "Bildschirm wie {name}",
  noneFound: "Keine Seite hat all das.", partMissing: "Ein Teil dieser Website fehlt; derselbe Aufruf von btx archive macht ihn wieder.",
  before: "vorige Seite", after: "nächste Seite", walk: "Zu anderen Seiten",
  // The viewer: screen and course.
  viewer: "Tamligub: eine Seite, wie sie entsteht", noPage: "Keine Seite ist geöffnet.", reading: "Die Seite wird gelesen …",
  pages: "Seiten", screen: "Bildschirm",
  screenName: "24 Zeilen mit 40 Zellen. Die Pfeiltasten zeigen auf eine Zelle; der Text der Seite steht darunter.", place: "Bytes",
  course: "Verlauf der Seite", toStart: "An den Anfang", step: "Schritt", backward: "zurück", forward: "vor", play: "Abspielen", pause: "Anhalten",
  toEnd: "Ans Ende", speed: "Tempo", speed1200: "1.200 bit/s", speed2400: "2.400 bit/s", speed9600: "9.600 bit/s", speed0: "sofort",
  shown: "Was gezeigt wird", outline: "neu gemalte Zellen umranden", reveal: "Verdecktes zeigen", font: "Schrift des Browsers",
  flash: "Blinken", copy: "Text kopieren", save: "PNG sichern",
  // Beside the screen.
  counts: "Verlauf", countBytes: "Bytes gekommen", countMoments: "Änderungen und Abweisungen", countLast: "Neu gemalt vom letzten Befehl",
  countAll: "Bisher neu gemalte Zellen", countWhole: "Würde immer alles gemalt", some: "{some} von {all}", someCells: "{some} von {all} Zellen",
  cell: "Zelle", pointAt: "Auf eine Zelle zeigen, oder auf dem Bildschirm die Pfeiltasten nehmen.",
  cellLine: "Zeile {row}, Spalte {column}: {text}", cellBlank: "Zeile {row}, Spalte {column}: Kein Befehl hat sie geändert; sie ist leer.",
  cellBytes: "Bytes von {at} an bis zur nächsten Änderung: {bytes}", cellAt: "Ihr Befehl steht bei Byte {at}.", moreBytes: "{shown} … {count} Bytes",
  refusals: "Abgewiesenes", refusal: "Byte {place}: {name}, Länge {length}",
  refusedNone: "Nichts abgewiesen.", refusedSome: "{count} abgewiesen.", refusedNoneOf: "Von {items} Elementen ist keines abgewiesen.",
  refusedOneOf: "1 von {items} Elementen ist abgewiesen.", refusedSomeOf: "{count} von {items} Elementen sind abgewiesen.",
  refusedFirst: " Die ersten {most} stehen hier.", otherCheck: " Der Text von check ist von einer anderen Seite.",
  state: "{come} von {length} Bytes: {done}.", nothingCame: "noch hat sich nichts geändert", cameRefused: "abgewiesen bei Byte {place}: {name}",
  cameCells: "der Befehl bei Byte {place} hat {some} von {all} Zellen neu gemalt",
  copied: "Der Text ist kopiert.", selected: "Der Text ist unten markiert; die Tasten des Browsers kopieren ihn.", saved: "Das Bild ist gesichert.",
  // What is opened.
  text: "Die Seite als Text", open: "Andere Seite öffnen",
  openTexts: "Gebraucht wird der Text, den cept_tool changes SEITE schreibt; dazu, wer mag, die Seite selbst, der Text von check und der von "
    + "flash SEITE 6 (hierher gezogen endet sein Name auf .flash). Dateien lassen sich auch irgendwo auf diese Seite ziehen. Nichts verlässt "
    + "den Rechner.",
  openPages: "Gebraucht werden Seiten, eine oder mehrere, oder der Text, den cept_tool changes SEITE schreibt, dazu, wer mag, die anderen Texte. "
    + "Dateien und ganze Ordner lassen sich auch irgendwo auf diese Seite ziehen, und Dateien einfügen; von einem Ordner gilt, was auf .btx "
    + "endet. Nichts verlässt den Rechner.",
  fileChanges: "Text von changes", paste: "oder eingefügt", filePage: "Seite (.btx)", fileCheck: "Text von check", fileFlash: "Text von flash",
  openShow: "Zeigen", pasted: "eingefügter Text",
  // A line that is watched.
  line: "Eine Leitung beobachten", speedOwn: "eigene Zeit",
  lineWords: "Öffnet einen WebSocket, wie ihn btx host --web hat, und zeigt, was darüber kommt, sobald es kommt. Endet die Leitung oder "
    + "wird sie mit dem Knopf verlassen, ist das Gekommene eine Seite; wer eine andere Seite öffnet, verlässt die Leitung auch. Sichern "
    + "lässt sich das Gekommene, bis die nächste Leitung offen ist. Was unter „Eingabe“ steht, geht mit der Eingabetaste hinaus: * und # "
    + "beginnen und beenden einen Abruf, und was nicht zu ASCII gehört, bleibt hier.",
  lineAddress: "Adresse", lineWatch: "Beobachten", lineLeave: "Verlassen", lineSave: "Gekommenes sichern", lineKeys: "Eingabe",
  lineOpen: "Die Leitung ist offen.", lineEnded: "Die Leitung ist zu Ende. Was kam, ist eine Seite.", lineSaved: "Das Gekommene ist gesichert.",
  lineUnopened: "die Leitung lässt sich nicht öffnen", lineNowhere: "das ist keine Adresse eines WebSockets",
  lineBarred: "dieser Viewer kam über https, und der Browser öffnet von dort nur Adressen mit wss://",
  // Keys.
  keys: "Tasten", letters: "Tasten mit Buchstaben und Zeichen gelten", keyHome: "Pos1", keyEnd: "Ende", keyArrows: "Pfeiltasten",
  keysPlay: "abspielen, anhalten", keysStep: "einen Befehl vor, zurück", keysEnds: "an den Anfang, ans Ende",
  keysSpeed: "1.200, 2.400, 9.600 bit/s, sofort", keysShown: "Umrandungen, Verdecktes, Blinken", keysCopy: "Text kopieren, Bild sichern",
  keysArrows: "auf dem Bildschirm: auf eine Zelle zeigen",
  // What can't be shown.
  of: "{name}: {why}", noChanges: "Der Text von changes fehlt.", otherFlash: "Der Text von flash ist von einer anderen Seite.",
  notHere: "so heißt hier keine Seite, obwohl die Adresse sie nennt",
  openFlash: "Der Text von flash führt nicht zur ersten Phase zurück; der von flash SEITE 6 tut es.",
  noText: "das ist kein Text von changes; eine Seite zeigen btx html SEITE und der Viewer, den btx viewer schreibt",
  notChanges: "Zeile {number} ist keine Zeile von changes: „{line}“", notTrace: "Zeile {number} ist keine Zeile von trace: „{line}“",
  notFlash: "Zeile {number} ist keine Zeile von flash: „{line}“", notCells: "Zeile {number} ist keine Zeile von cells: „{line}“",
  notRefusal: "Zeile {number} ist keine Abweisung: „{line}“", notCheck: "Zeile {number} ist keine letzte Zeile von check: „{line}“",
  ended4: "sie lässt sich nicht bis zum Ende lesen",
  ended6: "der Speicher reicht nicht; nichts wurde geschrieben",
  notRead: "was sich auf ihr ändert, ließ sich hier nicht lesen: {why}",
  textTooLong: "was sich auf ihr ändert, ist als Text länger, als der Browser es fasst; btx changes schreibt es",
  ended7: "die Seite hat mehr als 16.777.216 Bytes; nur die Elemente der ersten 16.777.216 wurden gelesen",
  ended: "das Programm endete mit Status {status}", noPages: "keine Datei darin endet auf .btx",
};
const ENGLISH = {
  language: "Language",
  archive: "Archive of Bildschirmtext pages", search: "Search", searched: "in names and texts", show: "Show",
  all: "all pages", whole: "nothing refused", refused: "with refused items", unread: "not read", alike: "screens that are the same",
  by: "by", byName: "name", byBytes: "size, largest first", byRefused: "refused items, most first",
  folders: "Folders", allFolders: "all folders", count: "{some} of {all} pages", unreadFolders: "folders not read: {some}",
  bytes: "{bytes} bytes", status: "status {status}",
  items: "{refused} of {items} items refused", same: "screen as {name}",
  noneFound: "No page has all of that.", partMissing: "A part of this website is missing; the same command of btx archive makes it again.",
  before: "page before", after: "next page", walk: "To other pages",
  viewer: "Tamligub: a page being built", noPage: "No page is open.", reading: "The page is being read …", pages: "Pages", screen: "Screen",
  screenName: "24 rows of 40 cells. The arrow keys point at a cell; the text of the page stands below.", place: "Bytes",
  course: "Course of the page", toStart: "To the start", step: "Step", backward: "back", forward: "forward", play: "Play", pause: "Pause",
  toEnd: "To the end", speed: "Speed", speed1200: "1,200 bit/s", speed2400: "2,400 bit/s", speed9600: "9,600 bit/s", speed0: "at once",
  shown: "What is shown", outline: "outline repainted cells", reveal: "reveal", font: "letters of the browser's font",
  flash: "flash", copy: "Copy text", save: "Save PNG",
  counts: "Course", countBytes: "Bytes come", countMoments: "Changes and refusals", countLast: "Repainted by the last",
  countAll: "Cells repainted so far", countWhole: "With whole repaints", some: "{some} of {all}", someCells: "{some} of {all} cells",
  cell: "Cell", pointAt: "Point at a cell, or go to the screen and use the arrow keys.",
  cellLine: "Row {row}, column {column}: {text}", cellBlank: "Row {row}, column {column}: no command has changed it; it is blank.",
  cellBytes: "Bytes from {at} up to the next change: {bytes}", cellAt: "Its command is at byte {at}.", moreBytes: "{shown} … {count} bytes",
  refusals: "Refusals", refusal: "byte {place}: {name}, length {length}",
  refusedNone: "None refused.", refusedSome: "{count} refused.", refusedNoneOf: "None of {items} items is refused.",
  refusedOneOf: "1 of {items} items is refused.", refusedSomeOf: "{count} of {items} items are refused.",
  refusedFirst: " The first {most} are listed.", otherCheck: " The text of check is of another page.",
  state: "{come} of {length} bytes: {done}.", nothingCame: "nothing has changed yet", cameRefused: "refused at byte {place}: {name}",
  cameCells: "the command at byte {place} repainted {some} of {all} cells",
  copied: "The text is copied.", selected: "The text is selected below; copy it with your browser's keys.", saved: "The picture is saved.",
  text: "The page as text", open: "Open another page",
  openTexts: "Take the text that cept_tool changes PAGE prints; with it, if you like, the stored page, the text of check, and that of "
    + "flash PAGE 6 (dropped, its name ends in .flash). Files can also be dropped anywhere on this page. Nothing leaves your machine.",
  openPages: "Take stored pages, one or several, or the text that cept_tool changes PAGE prints, with the other texts if you like. "
    + "Files and whole folders can also be dropped anywhere on this page, and files pasted; of a folder what ends in .btx is taken. "
    + "Nothing leaves your machine.",
  fileChanges: "Text of changes", paste: "or pasted", filePage: "Stored page", fileCheck: "Text of check", fileFlash: "Text of flash",
  openShow: "Show", pasted: "pasted text",
  line: "Watch a line", speedOwn: "its own time",
  lineWords: "Opens a WebSocket, such as btx host --web has, and shows what comes over it as it comes. When it ends, or is left by the "
    + "button, what came is a page; who opens another page leaves the line too. What came can be saved until the next line is open. What "
    + "is written under “Input” is sent when Return is pressed: * and # begin and end a request, and what isn't ASCII stays here.",
  lineAddress: "Address", lineWatch: "Watch", lineLeave: "Leave", lineSave: "Save what came", lineKeys: "Input",
  lineOpen: "The line is open.", lineEnded: "The line has ended. What came is a page.", lineSaved: "What came is saved.",
  lineUnopened: "the line can't be opened", lineNowhere: "this is no address of a WebSocket",
  lineBarred: "this viewer came over https, from where the browser opens addresses with wss:// alone",
  keys: "Keys", letters: "letter keys are on", keyHome: "Home", keyEnd: "End", keyArrows: "arrow keys",
  keysPlay: "play, pause", keysStep: "one command forward, back", keysEnds: "to the start, to the end",
  keysSpeed: "1,200, 2,400, 9,600 bit/s, at once", keysShown: "outlines, reveal, flash", keysCopy: "copy the text, save the picture",
  keysArrows: "on the screen: point at a cell",
  of: "{name}: {why}", noChanges: "The text of changes isn't there.", otherFlash: "The text of flash is of another page.",
  notHere: "the address names it, and no page here is called that",
  openFlash: "The text of flash doesn't lead back to its first phase; that of flash PAGE 6 does.",
  noText: "this is no text of changes; a stored page is shown by btx html PAGE, and by the viewer that btx viewer writes",
  notChanges: "Line {number} is not understood as a change line or a refusal: “{line}”",
  notTrace: "Line {number} is not understood as a line of trace: “{line}”",
  notFlash: "Line {number} is not understood as a line of flash: “{line}”", notCells: "Line {number} is not understood as a cell line: “{line}”",
  notRefusal: "Line {number} is not understood as a refusal: “{line}”", notCheck: "Line {number} is not understood as a check line: “{line}”",
  ended4: "it could not be read to its end",
  ended6: "there is not enough memory; nothing was written",
  notRead: "what changes on it could not be read here: {why}",
  textTooLong: "what changes on it is longer as a text than the browser can hold; btx changes writes it",
  ended7: "the page has more than 16,777,216 bytes; only the items of the first 16,777,216 were read",
  ended: "the program ended with status {status}", noPages: "no file in it ends in .btx",
};

/** @type {Record<string, Record<string, string>>} */
export const TABLES = { de: GERMAN, en: ENGLISH };
