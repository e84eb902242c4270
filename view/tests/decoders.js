// Tests what stands over the module where it needs no page, under Node: node decoders.js TEXTS MODULE, where MODULE is a tamligub.wasm.
import "./stub.js";
import "./test_decoding.js";
import "./test_notices.js";
