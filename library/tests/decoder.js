// Feeds pages to decoders of the module under Node, and puts what these say. library/test_decoder runs it.
//
//   node decoder.js MODULE pages SEED TURNS FILE..   what the program in decoder.c puts of these pages; all decoders are in one instance
//   node decoder.js MODULE many FILE..               1,000 decoders opened, fed and closed in one instance take no more memory than the
//                                                    first ones, whatever order they are closed in; and what can't be done is thrown,
//                                                    as is what isn't bytes where they are taken
"use strict";
const fs = require("fs");
const path = require("path");
const vm = require("vm");
const { run, Decoder, NoMemory } = require(path.join(__dirname, "..", "tamligub.js"));
const { drawing, line, changes, cells, flashing } = require(path.join(__dirname, "notices.js"));

function fail(what) {
    console.log(`decoder.js: ${what}`);
    process.exit(1);
}

const out = [];

function say(name, text) {
    const bytes = Buffer.from(text);
    out.push(Buffer.from(`${name} ${bytes.length}\n`), bytes);
}

// What a page says where after so many bytes another decoder goes on, which a snapshot of the first one brings back.
function goneOn(instance, page, at) {
    const first = new Decoder(instance), said = first.feed(page.subarray(0, at)), other = Decoder.restored(instance, first.snapshot());
    first.close();
    said.push(...other.feed(page.subarray(at)), ...other.finish());
    other.close();
    return said.map((notice) => line(notice)).join("");
}

function pages(module, seed, turns, paths) {
    const instance = new WebAssembly.Instance(module);
    for (const name of paths) {
        const page = new Uint8Array(fs.readFileSync(name)), decoder = new Decoder(instance), other = new Decoder(instance);
        const text = changes(decoder, page, 0);
        if (changes(other, page, 2 * seed + 1) !== text) fail("pieces say something else than bytes one by one");
        other.close();
        say("changes", text);
        const at = (7 * page.length + seed) % (page.length + 1);
        if (goneOn(instance, page, at) !== text) fail("a decoder that was brought back goes on otherwise");
        const { fed, pending, ended } = decoder.state();
        if (fed !== page.length || pending !== 0 || ended !== 1) fail("it is in another state");
        say("cells", cells(decoder));
        say("write", decoder.write());
        say("flash", flashing(decoder, turns));
        decoder.close();
    }
    const all = Buffer.concat(out);
    for (let put = 0; put < all.length; ) put += fs.writeSync(1, all, put);
}

// Whether a call throws, and with this text where one is given.
function isThrown(call, text) {
    try {
        call();
        return false;
    } catch (fault) {
        return fault instanceof Error && fault.message === (text ?? fault.message);
    }
}

// Each call that takes a module says so of what is none, and of the promise of one.
function sayWhatModulesAre() {
    const decoders = [(thing) => new Decoder(thing), (thing) => Decoder.restored(thing, new Uint8Array())];
    const runs = [(thing) => run(thing, "show", { page: new Uint8Array() })];
    const things = [[undefined, "Undefined"], [new Uint8Array(8), "Uint8Array"], [Promise.resolve(), "Promise: await it before"]];
    for (const [calls, takes] of [[decoders, "a WebAssembly.Module or an instance of it"], [runs, "a WebAssembly.Module"]]) {
        for (const [thing, said] of things) {
            if (!calls.every((call) => isThrown(() => call(thing), `it takes ${takes}, and not ${said}`))) fail(`${said} is taken as a module`);
        }
    }
}

// Each call that takes bytes says so of what is none.
function sayWhatTheyTake(module, decoder) {
    const bytes = [(data) => decoder.feed(data), (data) => decoder.skim(data), (data) => Decoder.restored(module, data),
        (page) => run(module, "show", { page })];
    const texts = [(line) => decoder.line(line), (script) => run(module, "edit", { page: new Uint8Array(), script })];
    const things = [["A", "String"], [5, "Number"], [[65], "Array"], [new ArrayBuffer(1), "ArrayBuffer"]];
    const cases = things.flatMap(([thing, kind]) => bytes.map((call) => [call, thing, `a Uint8Array, and not ${kind}`]));
    const ofTexts = things.slice(1).flatMap(([thing, kind]) => texts.map((call) => [call, thing, `a Uint8Array or a string, and not ${kind}`]));
    for (const [call, thing, said] of [...cases, ...ofTexts]) {
        try {
            call(thing);
            fail(`${call} takes ${thing}`);
        } catch (fault) {
            if (!(fault instanceof TypeError) || fault.message !== `it takes bytes, ${said}`) fail(`${call} of ${thing}: ${fault}`);
        }
    }
    sayWhatModulesAre();
    // Bytes of another context, and those of Node.
    for (const given of [vm.runInNewContext("Uint8Array.of(65)"), Buffer.from("A")]) {
        if (new Decoder(module).feed(given).length !== 1) fail("bytes of another kind say nothing");
    }
}

// Where the engine gives no more memory it is said as where the module has none.
function sayWithoutMemory(module) {
    const { grow } = WebAssembly.Memory.prototype;
    WebAssembly.Memory.prototype.grow = () => {
        throw new RangeError("there are no more pages");
    };
    try {
        const { status, text } = run(module, "show", { page: Uint8Array.of(65) });
        if (status !== 6 || text.length !== 0) fail(`without memory show ends with ${status}`);
        new Decoder(module);
        fail("a decoder is opened without memory");
    } catch (fault) {
        if (!(fault instanceof NoMemory)) fail(`without memory ${fault} is thrown`);
    } finally {
        WebAssembly.Memory.prototype.grow = grow;
    }
}

function many(module, paths) {
    const instance = new WebAssembly.Instance(module), { memory } = instance.exports, draw = drawing(7);
    const all = paths.map((name) => new Uint8Array(fs.readFileSync(name)));
    const want = all.map((page) => changes(new Decoder(module), page, 0));
    const open = [];
    let taken = 0;
    for (let round = 0; round < 1000; round++) {
        const decoder = new Decoder(instance), number = round % all.length;
        open.push(decoder);
        // Of one decoder in five a whole page is compared.
        if (round % 5 !== 0) decoder.feed(all[number].subarray(0, 9));
        else if (changes(decoder, all[number], round) !== want[number]) fail(`decoder ${round} says something else`);
        if (open.length === 12) while (open.length > 4) open.splice(draw(open.length), 1)[0].close();
        if (round === 50) taken = memory.buffer.byteLength;
    }
    if (memory.buffer.byteLength !== taken) fail(`the memory grew from ${taken} to ${memory.buffer.byteLength} bytes`);
    const last = new Decoder(instance);
    sayWhatTheyTake(module, last);
    sayWithoutMemory(module);
    last.finish();
    const late = [() => last.feed(Uint8Array.of(65)), () => last.skim(Uint8Array.of(65)), () => last.finish(), () => last.snapshot()];
    if (!late.every((call) => isThrown(call, "the page has ended"))) fail("a page that has ended goes on, or that isn't said");
    if (!isThrown(() => Decoder.restored(instance, all[0]))) fail("there is a snapshot that is none");
    class Own extends Decoder {}
    const own = Own.restored(instance, new Decoder(instance).snapshot());
    if (!(own instanceof Own)) fail("a decoder of another class is restored");
    own.close();
    const nowhere = [[0, 1], [1, 41], [257, 1], [1, 257], [1.5, 1], ["1", 1]];
    if (!nowhere.every((place) => isThrown(() => last.look(...place)))) fail("there is a place that isn't there");
    const wrong = [-1, 1.5, 2 ** 32, "1"];
    if (!wrong.every((number) => isThrown(() => run(module, "gen", { number })))) fail("a number that is none was taken");
    [...open, last].forEach((decoder) => (decoder.close(), decoder.close()));
    if (!isThrown(() => last.feed(Uint8Array.of(65))) || !isThrown(() => last.look(1, 1))) fail("a closed decoder does something");
    const page = all[0], answer = run(module, "changes", { page });
    if (Buffer.from(answer.text).toString() !== want[0]) fail("run says something else");
}

const [, , name, what, ...words] = process.argv;
const module_ = new WebAssembly.Module(fs.readFileSync(name));
if (what === "pages") pages(module_, Number(words[0]), Number(words[1]), words.slice(2));
else if (what === "many") many(module_, words);
else process.exit(2);
