// Has what calls the module stand under Tamligub, as in a page before the editor's modules.
import { createRequire } from "node:module";

globalThis.window = globalThis;
const { run, Decoder } = createRequire(import.meta.url)("../../library/tamligub.js");
globalThis.Tamligub = { run, Decoder };
