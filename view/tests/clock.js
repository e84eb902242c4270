// A clock that stands until a test turns it: the time of a document, its timers and its frames go by it, and not by the machine's. It
// runs before the document's scripts.
(() => {
  "use strict";

  const FRAME = 1000 / 60;
  // What comes by rounding of sums.
  const LEAST = 1e-6;
  const waiting = new Map();
  let [now, last] = [0, 0];

  function set(act, after, every = null) {
    waiting.set(++last, { act, due: now + Math.max(0, after || 0), every });
    return last;
  }

  // The timer that is due first, until a time.
  function first(until) {
    const due = [...waiting].filter(([, timer]) => timer.due <= until + LEAST);
    return due.sort(([one, a], [other, b]) => a.due - b.due || one - other)[0];
  }

  const clear = (number) => waiting.delete(number);
  performance.now = () => now;
  window.setTimeout = (act, after, ...things) => set(() => act(...things), after);
  window.setInterval = (act, every, ...things) => set(() => act(...things), every, every);
  window.requestAnimationFrame = (act) => set(() => act(now), FRAME);
  window.clearTimeout = window.clearInterval = window.cancelAnimationFrame = clear;
  window.clock = {
    waiting: () => waiting.size,
    // Lets so many milliseconds go by; answers how many timers were due.
    turn(milliseconds) {
      const end = now + milliseconds;
      let count = 0;
      for (let next = first(end); next; next = first(end)) {
        const [number, timer] = next;
        now = Math.max(now, timer.due);
        if (timer.every === null) waiting.delete(number);
        else timer.due += timer.every;
        timer.act();
        count++;
      }
      now = end;
      return count;
    },
  };
})();
