/** A decoder and page editor for Bildschirmtext (videotex, CEPT profile 1). A page is a stored page as bytes, at most 2^24 of them. */

/** What is given after a word: a page, a page and a script or a drawing, a page and a number, a number, or nothing. */
export interface Given {
    readonly page?: Uint8Array;
    /** The lines of a script or a drawing, as text or as bytes, at most 2^20 of them. */
    readonly script?: Uint8Array | string;
    /** 0 to 4294967295. */
    readonly number?: number;
}

export interface Answer {
    /** 0 done, 1 refusals, 2 no such word or other things than it takes, 3 a bad line, 4 a number alone for a word of a page alone or page
     * and number for a word of a page and a script, 5 no room, 6 no memory, 7 too long, 8 not seven. */
    readonly status: number;
    /** What the word writes: text in UTF-8, or a page; at 7 and 8 what was written before. */
    readonly text: Uint8Array;
}

/** A colour: red, green and blue, 0 to 15 each; `behind` is 1 where what lies behind the screen is shown. */
export interface Colour {
    readonly red: number;
    readonly green: number;
    readonly blue: number;
    readonly behind: number;
}

/** What is drawn at a place: kind 0 nothing, 1 a sign, 2 a downloaded pattern; of a sign its set (0 primary, 1 supplementary, 2 and 3
 * mosaics, 4 downloaded), its code, 0x20 to 0x7F, and the code of its accent, or 0. */
export interface Sign {
    readonly kind: number;
    readonly set: number;
    readonly code: number;
    readonly accent: number;
}

/** A pattern of w by h pixels. The pixel of plane p, line y and column x is bit (p * h + y) * w + x of `bits`, from the lowest of the
 * first word on. With 2 or 4 planes there are 4 or 16 inks, with one none: then a pixel is the foreground. */
export interface Pattern {
    readonly bits: readonly bigint[];
    readonly w: number;
    readonly h: number;
    readonly planes: number;
    readonly inks: number;
    readonly colours: readonly Colour[];
}

/** What an item or a line says. Kind 1: a place looks otherwise now. Kind 2: bytes are refused. What is said of the other kind alone is 0. */
export interface Notice {
    /** How many bytes stand before the item; of a line all bytes of the page, of a phase those fed. */
    readonly at: number;
    readonly kind: 1 | 2;
    /** Of kind 2: how many bytes, and why: 1 UnassignedControl, 2 UnknownEscape, 3 UnknownCsi, 4 UnknownUnit, 5 BadParameter, 6 Interrupted,
     * 7 Truncated. */
    readonly length: number;
    readonly reason: number;
    /** Of kind 1, as is all that follows: row 1 to 24 from the top, column 1 to 40 from the left. */
    readonly row: number;
    readonly column: number;
    readonly sign: Sign;
    /** How far down and right the place is in its sign, of w by h places. */
    readonly dy: number;
    readonly dx: number;
    readonly w: number;
    readonly h: number;
    readonly fore: Colour;
    readonly back: Colour;
    /** 0 steady, 1 plain, 2 inverted, 3 reduced, 4 to 6 the fast ones, which go through six phases, on a terminal of the service six a
     * second: `flashTurn` says what each changes. */
    readonly flash: number;
    /** 1 where the background alone is shown until the sign, which is told as any other, is revealed, which is for the host to do. */
    readonly conceal: number;
    /** 1 where there is a line at the foot of the sign, or, of a block mosaic, where there are gaps between its blocks. */
    readonly lined: number;
    /** 1 where there is a dotted frame, also around a concealed sign. */
    readonly boxed: number;
    readonly pattern: Pattern | null;
}

/** Attributes for the next signs under the parallel C1 set; 255 stands for one that isn't set. */
export interface Pen {
    /** Entries of the colour table, 0 to 31. */
    readonly fore: number;
    readonly back: number;
    /** As in a notice. */
    readonly flash: number;
    readonly conceal: number;
    readonly lined: number;
    readonly boxed: number;
    /** 0 normal, 1 twice as high, 2 twice as wide, 3 both. */
    readonly size: number;
    readonly invert: number;
}

/** Where a decoder stands. Whether the cursor, which is at row and column, is on is for the host to
 * keep: each byte 0x11 that is fed puts it on and each byte 0x14 off, wherever they stand. Neither a snapshot nor a written page has it. */
export interface State {
    /** How many bytes were taken. */
    readonly fed: number;
    /** How many of the last ones are no item yet. */
    readonly pending: number;
    /** 1 where the page has ended. */
    readonly ended: number;
    /** The active position. */
    readonly row: number;
    readonly column: number;
    /** How many rows the format has, 20 or 24. */
    readonly rows: number;
    /** 1 where a line goes on in the next one. */
    readonly wrap: number;
    /** The rows of the scrolling area, 0 and 0 where there is none. */
    readonly first: number;
    readonly last: number;
    /** 1 where it scrolls at its edges. */
    readonly implicit: number;
    /** The revision of the rules, 1 or 2. */
    readonly revision: number;
    /** The C1 set: 0 serial, 1 parallel. */
    readonly c1: number;
    /** The sets G0 to G3, numbered as in a sign. */
    readonly g: readonly number[];
    /** Which of the four left and right bytes take, 0 to 3. */
    readonly left: number;
    readonly right: number;
    /** Which of them the next byte alone takes, or 0. */
    readonly single: number;
    /** The accent that waits for its sign, or 0. */
    readonly accent: number;
    /** The colour table, 0 to 3. */
    readonly table: number;
    /** 1 where what is written is protected. */
    readonly protect: number;
    readonly pen: Pen;
}

/** The colours in force: of the 32 entries of the colour table, and the entries that the four of the DCLUT name. */
export interface Colours {
    readonly entries: readonly Colour[];
    readonly dclut: readonly number[];
}

/** The decoder is closed, its page has ended, or, of a line, it has not ended yet. */
export class Closed extends Error {
    readonly name: "Closed";
}

/** The bytes are no snapshot of a decoder. */
export class NoSnapshot extends Error {
    readonly name: "NoSnapshot";
}

/** The line has more than 2^20 bytes, or the page would have more than 2^32. */
export class TooLong extends Error {
    readonly name: "TooLong";
}

/** There is no memory for what was asked for. */
export class NoMemory extends Error {
    readonly name: "NoMemory";
}

/** A line outside the grammar of scripts: 1 UnknownWord, 2 WrongCount, 3 BadNumber, 4 BadText, 5 BadHex, 6 BadBytes. */
export class BadLine extends Error {
    readonly name: "BadLine";
    readonly reason: number;
    readonly reasonName: string;
}

/** The module: by default the one of this package, else of its bytes, a Response, or what stands at a place, which is a URL or its text
 * (`file:` in Node); of a path hand in the bytes. A TypeError says so of anything else. */
export function load(source?: WebAssembly.Module | BufferSource | Response | URL | string): Promise<WebAssembly.Module>;

/** Runs the program on a word, such as "show" or "changes", and what is given after it. Nothing is kept between calls. A RangeError is thrown
 * of a number that isn't whole or out of its range, a TypeError of a page that isn't bytes, null among them, and of what is no module, such as
 * the promise of one. */
export function run(module: WebAssembly.Module, word: string, given?: Given): Answer;

/** A decoder that is fed bytes as they come, and then edited line by line. Many of them may live in one instance. What can't be done is thrown:
 * each class above says when. */
export class Decoder {
    constructor(host: WebAssembly.Module | WebAssembly.Instance);
    /** A decoder in the state that a snapshot has. What is shown already is told by `look` where flashing hadn't begun, else by `flashStart`.
     * A front of a snapshot, or a changed one, may be that of another state: keep its length and a checksum beside it. */
    static restored<D extends Decoder>(
        this: new (host: WebAssembly.Module | WebAssembly.Instance) => D, host: WebAssembly.Module | WebAssembly.Instance, snapshot: Uint8Array,
    ): D;
    /** Feeds bytes, and answers what their items change or refuse, in order. */
    feed(bytes: Uint8Array): Notice[];
    /** Feeds bytes, and tells nothing of them. */
    skim(bytes: Uint8Array): void;
    /** Ends the page, and answers what its end says. */
    finish(): Notice[];
    /** Makes a line of a script, as text or as bytes without its end, after the end of the page: each place that it changes, once, with its
     * look after it; null where there is nothing to make, of an empty line, a comment, or an undo or redo that finds no edit. */
    line(text: string | Uint8Array): Notice[] | null;
    /** Makes a line, and tells only whether there was something to make. */
    make(text: string | Uint8Array): boolean;
    /** How many edits can be undone, and how many were and can be redone, 0 to 64. */
    kept(): number;
    undone(): number;
    /** How a place looks: row 1 to 24, column 1 to 40; a RangeError is thrown of any other. */
    look(row: number, column: number): Notice;
    state(): State;
    colours(): Colours;
    /** The page as bytes, which bring it back. */
    write(): Uint8Array;
    /** All of the state as bytes, those under way included; `Closed` is thrown where the page has ended. */
    snapshot(): Uint8Array;
    /** The places seen at the start of flashing, over a blank display, and those that the next of six phases changes. Their looks are steady
     * ones, as they are seen in the phase. */
    flashStart(): Notice[];
    flashTurn(): Notice[];
    /** Gives the memory back. */
    close(): void;
}
