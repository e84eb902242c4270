// Of Node alone, and a name that no bundler reads.
const FILES = "node:fs/promises";
const TAKEN = "load takes a WebAssembly.Module, its bytes, a Response, or a URL or its text";

// A WebAssembly.Module: of one, of its bytes, of a Response, or of what stands at a place, which is a URL or its text.
async function compiled(source) {
    if (source instanceof WebAssembly.Module) return source;
    if (source instanceof ArrayBuffer || ArrayBuffer.isView(source)) return WebAssembly.compile(source);
    if (typeof Response !== "undefined" && source instanceof Response) return compiledOf(source, source.url || "the response");
    const place = placeOf(source);
    if (place.startsWith("file:") && typeof process !== "undefined" && process.versions?.node) {
        const { readFile } = await import(/* webpackIgnore: true */ /* @vite-ignore */ FILES);
        return WebAssembly.compile(await readFile(new URL(place)));
    }
    return compiledOf(await fetch(place), place);
}

// The text of a URL: a browser makes one of the name of what stands beside its page, while a path in Node is none.
function placeOf(source) {
    const kind = Object.prototype.toString.call(source).slice(8, -1);
    if (kind === "Promise") throw new TypeError(`${TAKEN}, and not a Promise: await it before`);
    if (kind !== "String" && kind !== "URL") throw new TypeError(`${TAKEN}, and not ${kind}`);
    try {
        return new URL(source, globalThis.document?.baseURI ?? globalThis.location?.href).href;
    } catch (fault) {
        throw new TypeError(`${TAKEN}, and ${source} is none: of a path hand in the bytes`);
    }
}

// The module that an answer brings.
async function compiledOf(answer, place) {
    if (!answer.ok) throw new Error(`${place}: status ${answer.status}`);
    const bytes = await answer.arrayBuffer();
    try {
        return await WebAssembly.compile(bytes);
    } catch (fault) {
        // Some servers answer whatever they don't have with a page.
        throw new Error(`${place}: it can't be taken as a WebAssembly module: ${fault.message}`, { cause: fault });
    }
}
