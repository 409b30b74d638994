// Agents of the tests: the first argument names one of these cases.

import assert from "node:assert/strict";

const words = (buffers) => new Int32Array(buffers[0]);

const CASES = {
  nothing: () => {},
  addition: ({ buffers, agent }) => {
    for (let time = 0; time < 3; time += 1) Atomics.add(words(buffers), agent, 1);
  },
  // Each reads, and then writes one more: additions that aren't whole get lost.
  racy: ({ buffers }) => {
    const value = Atomics.load(words(buffers), 0);
    Atomics.store(words(buffers), 0, value + 1);
  },
  waitsForEver: ({ buffers, agent }) => {
    if (agent === 0) Atomics.wait(words(buffers), 1, 0);
    else Atomics.load(words(buffers), 0);
  },
  waitsWithTime: ({ buffers }) => assert.equal(Atomics.wait(words(buffers), 0, 0, 0.5), "timed-out"),
  throwsAtOnce: ({ agent }) => {
    if (agent === 1) throw new RangeError("no such luck");
  },
  throwsLater: ({ buffers, agent }) => {
    Atomics.store(words(buffers), 0, 7);
    if (agent === 1) throw new Error("after a call");
    Atomics.wait(words(buffers), 1, 0);
  },
  throwsNoError: () => {
    throw { toString: () => assert.fail("it was asked for its text") };
  },
  promises: async ({ buffers }) => Atomics.load(words(buffers), 0),
  spins: ({ buffers }) => {
    while (Atomics.load(words(buffers), 0) === 0);
  },
  loops: ({ agent }) => {
    if (agent === 0) return;
    console.log("it loops");
    for (;;);
  },
  catchesAll: ({ buffers, agent }) => {
    if (agent === 1) throw new Error("the end");
    for (;;) {
      try {
        Atomics.wait(words(buffers), 0, 0);
      } catch {
        // It goes on without an end.
      }
    }
  },
  cleansUp: ({ buffers, agent }) => {
    try {
      Atomics.wait(words(buffers), 0, 0);
    } finally {
      Atomics.store(words(buffers), 1, 9);
    }
    assert.fail(`agent ${agent} was never woken`);
  },
  writesPlainly: ({ buffers, agent }) => {
    Atomics.add(words(buffers), 0, 1);
    if (agent === 1) new Uint8Array(buffers[0])[6] = 5;
    Atomics.add(words(buffers), 0, 1);
  },
  writesPlainlyAtTheEnd: ({ buffers }) => {
    words(buffers)[2] = 1;
  },
  exits: ({ buffers, agent }) => {
    Atomics.add(words(buffers), 0, 1);
    if (agent === 1) process.exit(7);
  },
  prints: ({ buffers, agent }) => {
    for (let line = 0; line < 3; line += 1) console.log(`agent ${agent} says ${Atomics.add(words(buffers), 0, 1)}`);
  },
  manyViews: ({ buffers }) => {
    for (let byte = 0; byte < 70; byte += 1) Atomics.load(new Uint8Array(buffers[0], byte, 1), 0);
  },
  longCalls: ({ buffers }) => {
    const longest = -(2n ** 127n);
    const view = new BigUint64Array(buffers[0], 65_520, 1);
    for (let time = 0; time < 1_000; time += 1) Atomics.compareExchange(view, 0, longest, longest);
  },
  // In a worker's first run it adds.
  addsThenCallsLong: (about) => {
    const make = globalThis.hasAdded ? CASES.longCalls : CASES.addition;
    globalThis.hasAdded = true;
    make(about);
  },
  // Calls at each depth from where the stack came to its end, until one call is made.
  deep: ({ buffers }) => {
    let made = false;
    const deeper = () => {
      try {
        deeper();
      } catch {
        if (made) return;
        Atomics.add(words(buffers), 0, 1);
        made = true;
      }
    };
    deeper();
  },
  countsAndWaits: ({ buffers }) => {
    globalThis.seedsBefore = (globalThis.seedsBefore ?? 0) + 1;
    Atomics.store(words(buffers), 0, globalThis.seedsBefore);
    Atomics.wait(words(buffers), 1, 0);
  },
  countsSeeds: ({ buffers }) => {
    globalThis.seedsBefore = (globalThis.seedsBefore ?? 0) + 1;
    Atomics.store(words(buffers), 0, globalThis.seedsBefore);
  },
};

export default function agent({ args, ...rest }) {
  const [name] = args;
  return CASES[name](rest);
}
