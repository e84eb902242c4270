// Counts the work of a document's scripts, whatever time it takes: how often each function and each method of `Tamligub` is called and
// by how many signs or bytes it is handed, and each run of the module. It runs before them.
(() => {
  "use strict";

  const calls = new Map();
  const runs = [];

  const sizeOf = (thing) => (typeof thing === "string" || thing instanceof Uint8Array ? thing.length : 0);

  function note(name, things) {
    const { count, size } = calls.get(name) || { count: 0, size: 0 };
    calls.set(name, { count: count + 1, size: size + things.reduce((sum, thing) => sum + sizeOf(thing), 0) });
  }

  function counted(name, call) {
    const apply = (target, self, things) => {
      note(name, things);
      return Reflect.apply(target, self, things);
    };
    const construct = (target, things, made) => {
      note(name, things);
      return Reflect.construct(target, things, made);
    };
    return new Proxy(call, { apply, construct });
  }

  // Has the methods of a class counted under its name.
  function countMethods(name, prototype) {
    for (const [key, { value, writable }] of Object.entries(Object.getOwnPropertyDescriptors(prototype))) {
      if (key !== "constructor" && typeof value === "function" && writable) prototype[key] = counted(`${name}.${key}`, value);
    }
  }

  // The program as a function, each run of which is kept with the bytes of its page and the lines of its script.
  const countedRun = (run) => (module, word, things = {}) => {
    const lines = (things.script || []).reduce((sum, byte) => sum + (byte === 0x0a), 0);
    runs.push({ word, page: (things.page || []).length, lines });
    return run(module, word, things);
  };

  function withCounts(name, value) {
    if (name === "run") return countedRun(value);
    // Its text is what a Worker is made of.
    if (name === "calling") return value;
    if (typeof value === "function") {
      if (value.prototype) countMethods(name, value.prototype);
      return counted(name, value);
    }
    const prototype = value !== null && typeof value === "object" ? Object.getPrototypeOf(value) : null;
    if (prototype && prototype.constructor && ["viewer", "editor"].includes(name)) countMethods(name, prototype);
    return value;
  }

  function set(target, name, value) {
    target[name] = withCounts(name, value);
    return true;
  }

  window.Tamligub = new Proxy({}, { set });
  window.work = {
    // How often a function was called, and with how many signs and bytes, since the last `forget`.
    of: (name) => calls.get(name) || { count: 0, size: 0 },
    names: () => [...calls.keys()],
    runs: () => runs.slice(),
    forget() {
      calls.clear();
      runs.length = 0;
    },
  };
})();
