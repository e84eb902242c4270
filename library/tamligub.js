// The program, in browsers and in Node, over a WebAssembly.Module made of tamligub.wasm.
//
// run(module, word, { page, script, number }) answers { status, text }. A call has an instance of its own, and so keeps nothing; what is
// handed in stands after the module's own memory, for which the memory is grown first. Where the text doesn't fit (status 5) it asks
// again with more room.
//
// new Decoder(module) is a decoder that is fed bytes as they come and then edited; so is new Decoder(instance), and one instance may have
// many:
//
//   feed(bytes)         the notices of what these bytes say, in an array
//   skim(bytes)         feeds bytes, and tells nothing
//   finish()            those of the end of the page
//   line(text)          those of a line of a script that is made after the end, null where there is nothing to make
//   make(text)          makes a line, and tells only whether there was something to make
//   kept(), undone()    how many edits can be undone, and how many can be redone
//   look(row, column)   how a place looks, as a notice
//   state()             what the decoder keeps beside the page
//   colours()           the colours in force: of the 32 entries, and which of them the four of the DCLUT name
//   write()             the page as bytes
//   snapshot()          all of its state as bytes; Decoder.restored(module or instance, bytes) is a decoder in that state
//   flashStart()        the places seen at the start of flashing; flashTurn(): those that the next turn changes
//   close()             gives its memory back
//
// Notices, states and colours are objects with the fields of tamligub.h; where there is no pattern it is null. What can't be done is
// thrown, as a class of its own: Closed, NoSnapshot, TooLong, NoMemory, and BadLine for a line outside the grammar, with the number of its
// reason, 1 to 6, and its name. Bytes are a Uint8Array, a script may be a string too; a TypeError says so of anything else, and of what is no
// module.
"use strict";

const PAGE_OF_MEMORY = 65536;
const NO_TEXT = 1;
const NO_LINE = 2;
const BAD_LINE = 3;
const NO_ROOM = 5;
const NO_MEMORY = 6;
const TOO_LONG = 7;
const MOST_ROOM = 1 << 29;
const MOST_NUMBER = 2 ** 32 - 1;
const MODULE = "a WebAssembly.Module";
const MODULE_OR_INSTANCE = "a WebAssembly.Module or an instance of it";
const BYTES = "a Uint8Array";
const BYTES_OR_TEXT = "a Uint8Array or a string";
const LINE_REASONS = ["UnknownWord", "WrongCount", "BadNumber", "BadText", "BadHex", "BadBytes"];

// What is given: nothing, a page, a page and a script, a number, a page and a number.
function givenOf({ page, script, number }) {
    if (page === undefined) return number === undefined ? 0 : 3;
    if (script !== undefined) return 2;
    return number === undefined ? 1 : 4;
}

// What kind of thing something is, of this window or of another one.
function kindOf(thing) {
    return Object.prototype.toString.call(thing).slice(8, -1);
}

// Bytes that are handed in; a Buffer of Node is a Uint8Array too.
function bytesIn(bytes, takes = BYTES) {
    const kind = kindOf(bytes);
    if (kind !== "Uint8Array") throw new TypeError(`it takes bytes, ${takes}, and not ${kind}`);
    return bytes;
}

// A script, a drawing or a line, as text or as bytes.
function textIn(text) {
    return typeof text === "string" ? new TextEncoder().encode(text) : bytesIn(text, BYTES_OR_TEXT);
}

// Whether a number is whole and in a range; the module would take any other one as one that is.
function isWithin(number, most) {
    return Number.isInteger(number) && number >= 0 && number <= most;
}

// The bytes that a call is given: of the word, the page and the script; what isn't given has none.
function partsOf(word, { page, script }) {
    const none = new Uint8Array();
    return [new TextEncoder().encode(word), page === undefined ? none : bytesIn(page), script === undefined ? none : textIn(script)];
}

// What an engine does that gives memory; one that has none left throws a RangeError.
function givenMemory(act, what) {
    try {
        return act();
    } catch (fault) {
        throw fault instanceof RangeError ? new NoMemory(`there is no memory for ${what}`, { cause: fault }) : fault;
    }
}

// An instance of a module; what is handed in instead, such as the promise of one, is told.
function instanceOf(module, takes = MODULE) {
    const kind = kindOf(module);
    if (kind !== "WebAssembly.Module") throw new TypeError(`it takes ${takes}, and not ${kind}${kind === "Promise" ? ": await it before" : ""}`);
    return givenMemory(() => new WebAssembly.Instance(module), "an instance of the module");
}

// More pages of memory; answers where they begin.
function grown(memory, size) {
    return givenMemory(() => memory.grow(Math.ceil(size / PAGE_OF_MEMORY)), "bytes of that number") * PAGE_OF_MEMORY;
}

function call(module, word, things, room) {
    const { memory, tamligub_run } = instanceOf(module).exports;
    const parts = partsOf(word, things);
    const sizes = [8, ...parts.map((part) => part.length), room];
    const starts = [];
    let end = memory.buffer.byteLength;
    for (const size of sizes) {
        starts.push(end);
        end += Math.ceil((size + 1) / 16) * 16;
    }
    grown(memory, end - memory.buffer.byteLength);
    parts.forEach((part, at) => new Uint8Array(memory.buffer).set(part, starts[at + 1]));
    const [put, first, page, script, out] = starts.map(BigInt);
    const [size, pageSize, scriptSize] = parts.map((part) => BigInt(part.length));
    const status = tamligub_run(first, size, givenOf(things), things.number ?? 0, page, pageSize, script, scriptSize, out, BigInt(room), put);
    const length = Number(new DataView(memory.buffer).getBigUint64(starts[0], true));
    return { status, text: givenMemory(() => new Uint8Array(memory.buffer, starts[4], Math.min(length, room)).slice(), "the text") };
}

// Where there is no memory for what is handed in and out, the answer is that of a program without memory.
function answerOf(module, word, things, room) {
    try {
        return call(module, word, things, room);
    } catch (fault) {
        if (!(fault instanceof NoMemory)) throw fault;
        return { status: NO_MEMORY, text: new Uint8Array() };
    }
}

function run(module, word, things = {}) {
    const { number = 0 } = things;
    if (!isWithin(number, MOST_NUMBER)) throw new RangeError(`${number} is no number from 0 to ${MOST_NUMBER}`);
    for (let room = 1 << 20; ; room *= 4) {
        const answer = answerOf(module, word, things, room);
        if (answer.status !== NO_ROOM || room >= MOST_ROOM) return answer;
    }
}

// ---- decoders ----

const ROOM_FOR_A_BYTE = 1920;
const ROOM = 2 * ROOM_FOR_A_BYTE;
const BYTES_AT_ONCE = 4096;
const SIZE_OF_HANDLE = 16;
const SIZE_OF_NOTICE = 184;
const SIZE_OF_STATE = 40;
const SIZE_OF_RECORD = 136;
const PATTERN = 2;

function fieldsAt(view, at, names) {
    return Object.fromEntries(names.map((name, number) => [name, view.getUint8(at + number)]));
}

// A call may tell of all places: what is read of each stands here field by field, which takes a tenth of the time.
function colourAt(view, at) {
    return { red: view.getUint8(at), green: view.getUint8(at + 1), blue: view.getUint8(at + 2), behind: view.getUint8(at + 3) };
}

function signAt(view, at) {
    return { kind: view.getUint8(at), set: view.getUint8(at + 1), code: view.getUint8(at + 2), accent: view.getUint8(at + 3) };
}

function patternAt(view, at) {
    const bits = Array.from({ length: 9 }, (_, number) => view.getBigUint64(at + 8 * number, true));
    const colours = Array.from({ length: 16 }, (_, number) => colourAt(view, at + 76 + 4 * number));
    return { bits, ...fieldsAt(view, at + 72, ["w", "h", "planes", "inks"]), colours };
}

function noticeAt(view, at) {
    const sign = signAt(view, at + 13);
    return {
        at: view.getUint32(at, true) + 4294967296 * view.getUint32(at + 4, true),
        kind: view.getUint8(at + 8),
        length: view.getUint8(at + 9),
        reason: view.getUint8(at + 10),
        row: view.getUint8(at + 11),
        column: view.getUint8(at + 12),
        sign,
        dy: view.getUint8(at + 17),
        dx: view.getUint8(at + 18),
        w: view.getUint8(at + 19),
        h: view.getUint8(at + 20),
        fore: colourAt(view, at + 21),
        back: colourAt(view, at + 25),
        flash: view.getUint8(at + 29),
        conceal: view.getUint8(at + 30),
        lined: view.getUint8(at + 31),
        boxed: view.getUint8(at + 32),
        pattern: sign.kind === PATTERN ? patternAt(view, at + 40) : null,
    };
}

function stateAt(view, at) {
    return {
        fed: Number(view.getBigUint64(at, true)),
        ...fieldsAt(view, at + 8, ["pending", "ended", "row", "column", "rows", "wrap", "first", "last", "implicit", "revision", "c1"]),
        g: Array.from({ length: 4 }, (_, number) => view.getUint8(at + 19 + number)),
        ...fieldsAt(view, at + 23, ["left", "right", "single", "accent", "table", "protect"]),
        pen: fieldsAt(view, at + 29, ["fore", "back", "flash", "conceal", "lined", "boxed", "size", "invert"]),
    };
}

function coloursAt(view, at) {
    return {
        entries: Array.from({ length: 32 }, (_, number) => colourAt(view, at + 4 * number)),
        dclut: Array.from({ length: 4 }, (_, number) => view.getUint8(at + 128 + number)),
    };
}

// The decoder is closed, its page has ended, or it has not ended yet.
class Closed extends Error {
    name = "Closed";
}

// The bytes are no snapshot.
class NoSnapshot extends Error {
    name = "NoSnapshot";
}

// The line has more than 2^20 bytes, or the page would have more than 2^32.
class TooLong extends Error {
    name = "TooLong";
}

// There is no memory for what was asked for.
class NoMemory extends Error {
    name = "NoMemory";
}

// A line outside the grammar of scripts, and why, by number and name.
class BadLine extends Error {
    name = "BadLine";

    constructor(reason) {
        super(`the line is outside the grammar of scripts: ${LINE_REASONS[reason - 1]}`);
        this.reason = reason;
        this.reasonName = LINE_REASONS[reason - 1];
    }
}

// What the decoders of an instance share: room for what one call hands in and out, and places for what the module keeps of each.
class Shared {
    constructor(instance) {
        this.wasm = instance.exports;
        this.number = this.grown(16 + SIZE_OF_RECORD + BYTES_AT_ONCE + ROOM * SIZE_OF_NOTICE);
        this.reason = this.number + 8;
        this.record = this.number + 16;
        this.bytes = this.record + SIZE_OF_RECORD;
        this.list = this.bytes + BYTES_AT_ONCE;
        this.line = this.bytes;
        this.longest = BYTES_AT_ONCE;
        this.out = this.list;
        this.room = ROOM * SIZE_OF_NOTICE;
        this.handles = [];
    }

    // Memory of the host's own: the heap of the module keeps away from it.
    grown(size) {
        return grown(this.wasm.memory, size);
    }

    handle() {
        if (this.handles.length === 0) {
            const page = this.grown(PAGE_OF_MEMORY);
            for (let at = page; at < page + PAGE_OF_MEMORY; at += SIZE_OF_HANDLE) this.handles.push(at);
        }
        return this.handles.pop();
    }

    // More room for bytes.
    makeRoom() {
        this.out = this.grown(2 * this.room);
        this.room *= 2;
    }

    // A line as the module finds it.
    handIn(line) {
        if (line.length > this.longest) {
            this.line = this.grown(2 * line.length);
            this.longest = 2 * line.length;
        }
        new Uint8Array(this.wasm.memory.buffer).set(line, this.line);
    }

    view() {
        return new DataView(this.wasm.memory.buffer);
    }

    put() {
        return Number(this.view().getBigUint64(this.number, true));
    }

    notices() {
        const view = this.view();
        return Array.from({ length: this.put() }, (_, number) => noticeAt(view, this.list + number * SIZE_OF_NOTICE));
    }
}

const shared = new WeakMap();

function sharedOf(instance) {
    if (!shared.has(instance)) shared.set(instance, new Shared(instance));
    return shared.get(instance);
}

class Decoder {
    constructor(host) {
        this.shared = sharedOf(kindOf(host) === "WebAssembly.Instance" ? host : instanceOf(host, MODULE_OR_INSTANCE));
        this.handle = this.shared.handle();
        if (this.call("tamligub_open") !== 0) {
            this.close();
            throw new NoMemory("there is no memory for a decoder");
        }
    }

    // A call of the module; its pointers and lengths are BigInt.
    call(name, ...things) {
        if (this.handle === null) throw new Closed("the decoder is closed");
        return this.shared.wasm[name](BigInt(this.handle), ...things);
    }

    // The notices of a call that puts them into the list.
    noticesOf(name, fault) {
        const { list, number } = this.shared;
        if (this.call(name, ...[list, ROOM, number].map(BigInt)) !== 0) throw new Closed(fault);
        return this.shared.notices();
    }

    // Feeds bytes in pieces; after each of them what they say stands in the list.
    feedIn(bytes, after) {
        const { wasm, bytes: at, list, number } = this.shared;
        bytesIn(bytes);
        if (this.handle === null) throw new Closed("the decoder is closed");
        while (bytes.length > 0) {
            const piece = bytes.subarray(0, BYTES_AT_ONCE);
            new Uint8Array(wasm.memory.buffer).set(piece, at);
            const taken = Number(this.call("tamligub_feed", ...[at, piece.length, list, ROOM, number].map(BigInt)));
            if (taken === 0) throw this.state().ended ? new Closed("the page has ended") : new TooLong("no page has more than 2^32 bytes");
            after();
            bytes = bytes.subarray(taken);
        }
    }

    feed(bytes) {
        const said = [];
        this.feedIn(bytes, () => {
            for (const notice of this.shared.notices()) said.push(notice);
        });
        return said;
    }

    skim(bytes) {
        this.feedIn(bytes, () => {});
    }

    finish() {
        return this.noticesOf("tamligub_finish", "the page has ended");
    }

    // Makes a line of a script, as text or as bytes, without its end; answers whether there was something to make.
    make(text) {
        const { shared } = this, line = textIn(text);
        shared.handIn(line);
        const places = [shared.line, line.length, shared.list, ROOM, shared.number, shared.reason].map(BigInt);
        const answer = this.call("tamligub_line", ...places);
        if (answer === 0 || answer === NO_LINE) return answer === 0;
        if (answer === BAD_LINE) throw new BadLine(shared.view().getUint32(shared.reason, true));
        if (answer === NO_MEMORY) throw new NoMemory("there is no memory for an edit");
        throw answer === TOO_LONG ? new TooLong("the line is too long") : new Closed("the page has not ended");
    }

    line(text) {
        return this.make(text) ? this.shared.notices() : null;
    }

    kept() {
        return this.call("tamligub_kept");
    }

    undone() {
        return this.call("tamligub_undone");
    }

    colours() {
        const { record } = this.shared;
        this.call("tamligub_colours", BigInt(record));
        return coloursAt(this.shared.view(), record);
    }

    look(row, column) {
        const { list } = this.shared;
        const isThere = isWithin(row, 255) && isWithin(column, 255) && this.call("tamligub_look", row, column, BigInt(list)) === 0;
        if (!isThere) throw new RangeError("there is no such place");
        return noticeAt(this.shared.view(), list);
    }

    state() {
        const { record } = this.shared;
        this.call("tamligub_state", BigInt(record));
        return stateAt(this.shared.view(), record);
    }

    // A text of the decoder, as bytes, with as much room as it needs.
    textOf(name, fault) {
        const { number } = this.shared;
        for (;;) {
            const { out, room } = this.shared;
            const status = this.call(name, ...[out, room, number].map(BigInt));
            if (status === NO_MEMORY) throw new NoMemory("there is no memory for the bytes");
            if (status === NO_TEXT) throw new Closed(fault);
            if (status !== NO_ROOM) return new Uint8Array(this.shared.wasm.memory.buffer, out, this.shared.put()).slice();
            this.shared.makeRoom();
        }
    }

    write() {
        return this.textOf("tamligub_write");
    }

    snapshot() {
        return this.textOf("tamligub_snapshot", "the page has ended");
    }

    // A decoder in the state that a snapshot has.
    static restored(host, snapshot) {
        bytesIn(snapshot);
        // No snapshot is as long as the room that there always is.
        if (snapshot.length > ROOM * SIZE_OF_NOTICE) throw new NoSnapshot("this is no snapshot");
        const decoder = new this(host), { shared } = decoder;
        new Uint8Array(shared.wasm.memory.buffer).set(snapshot, shared.out);
        const status = decoder.call("tamligub_restore", BigInt(shared.out), BigInt(snapshot.length));
        if (status === 0) return decoder;
        decoder.close();
        throw status === NO_MEMORY ? new NoMemory("there is no memory for a decoder") : new NoSnapshot("this is no snapshot");
    }

    flashStart() {
        return this.noticesOf("tamligub_flash_start");
    }

    flashTurn() {
        return this.noticesOf("tamligub_flash_turn");
    }

    close() {
        if (this.handle === null) return;
        this.call("tamligub_close");
        this.shared.handles.push(this.handle);
        this.handle = null;
    }
}

if (typeof exports !== "undefined") Object.assign(exports, { run, Decoder, BadLine, Closed, NoMemory, NoSnapshot, TooLong });
