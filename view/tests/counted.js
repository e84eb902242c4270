// Counts how often each block of the viewer's modules runs, as V8 counts it whatever time it takes. It begins before the modules are read, so
// that all of their blocks are counted.
import assert from "node:assert";
import inspector from "node:inspector";
import path from "node:path";

const session = new inspector.Session();
session.connect();

// The answer of V8 to a question, which it gives at once.
function asked(method, params = {}) {
  let answer = null;
  session.post(method, params, (fault, result) => {
    assert.strictEqual(fault, null, method);
    answer = result;
  });
  return answer;
}

asked("Profiler.enable");
asked("Profiler.startPreciseCoverage", { callCount: true, detailed: true });

const FOLDER = new URL("../", import.meta.url).href;

// How often the block that runs most did so while something was done, and where it stands.
export function most(act) {
  asked("Profiler.takePreciseCoverage");
  const made = act();
  const scripts = asked("Profiler.takePreciseCoverage").result.filter(({ url }) => url.startsWith(FOLDER));
  const blocks = scripts.flatMap(({ url, functions }) => functions.flatMap(({ functionName, ranges }) =>
    ranges.map(({ count }) => ({ count, where: `${functionName} of ${path.basename(url)}` }))));
  return { made, ...blocks.reduce((one, other) => (other.count > one.count ? other : one), { count: 0, where: "" }) };
}

export function isWithin({ count, where }, bound, what) {
  assert.ok(count <= bound, `${what}: a block of ${where} runs ${count} times, more than ${bound}`);
}
