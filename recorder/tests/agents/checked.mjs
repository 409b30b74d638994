// Agents whose module has `init` and `check`; the first argument names what they do, in all three.

async function later() {
  await undefined;
  throw new Error("its turn never comes");
}

const ways = [
  later,
  () => {
    later();
  },
  function* never() {
    throw new Error("nobody asks for it");
  },
  () => {},
];

const ends = [
  ({ words, agent }) => (agent === 0 ? Atomics.wait(words, 1, 0) : Atomics.load(words, 0)),
  ({ words }) => {
    throw new Error(Atomics.load(words, 0));
  },
  () => {},
  ({ words }) => {
    while (Atomics.load(words, 0) === 0);
  },
];

const PROGRAMS = {
  // One of two may be lost.
  lost: {
    agent: ({ words }) => Atomics.store(words, 0, Atomics.load(words, 0) + 1),
    check: ([buffer]) => {
      const [count] = new Int32Array(buffer);
      if (count !== 2) throw new Error(`counted to ${count}`);
    },
  },
  // All that a check can see: `init` has filled the buffers, and after it the agents ran.
  filled: {
    init: (buffers, { agents, args }) => {
      new Int32Array(buffers[0])[1] += 5 * agents;
      new Uint8Array(buffers[1]).set([1, 0, 0, 0, 0, 0, args.length]);
    },
    agent: ({ words }) => Atomics.add(words, 1, 1),
    check: (buffers, run) => {
      const seen = JSON.stringify([...buffers.map((buffer) => [...new Uint8Array(buffer)]), run]);
      const expected = [[0, 0, 0, 0, 12, 0, 0, 0], [1, 0, 0, 0, 0, 0, 1], { agents: 2, args: ["filled"] }];
      if (seen !== JSON.stringify(expected)) throw new Error(seen);
      // The next run begins anew all the same.
      for (const buffer of buffers) new Uint8Array(buffer).fill(255);
    },
  },
  // Both write to one word before their calls; and the sum is wrong.
  races: {
    agent: ({ words, agent }) => {
      words[1] = 1 + agent;
      Atomics.add(words, 0, 1);
    },
    check: ([buffer]) => {
      if (Atomics.load(new Int32Array(buffer), 0) !== 3) throw "no Error";
    },
  },
  // The third run of a worker can't begin. The first one fails, and is made once more for its trace.
  begins: {
    init: ([buffer]) => {
      globalThis.begun = (globalThis.begun ?? 0) + 1;
      if (globalThis.begun === 3) throw new TypeError("not thrice");
      new Int32Array(buffer)[1] = 1;
    },
    agent: ({ words, agent }) => {
      if (agent === 0) Atomics.wait(words, 1, 1);
      else Atomics.load(words, 0);
    },
  },
  loops: {
    agent: ({ words }) => Atomics.load(words, 0),
    check: () => {
      for (;;);
    },
  },
  // One way after the other to be done later, or never.
  unfinished: {
    init: () => (ways.length === 1 ? later() : undefined),
    agent: ({ words }) => Atomics.load(words, 0),
    check: () => ways.shift()(),
  },
  // One way after the other in which a run doesn't finish.
  ends: {
    agent: ({ words, agent }) => ends.shift()({ words, agent }),
    check: () => {
      throw new Error("it was checked");
    },
  },
  // It fills more bytes than a script can have stores.
  large: {
    init: ([buffer]) => new Uint8Array(buffer).fill(7),
    agent: ({ words }) => Atomics.add(words, 3, 1),
  },
};

export const setup = { agents: 2, buffers: [8, 7] };

export function init(buffers, run) {
  return PROGRAMS[run.args[0]].init?.(buffers, run);
}

export default function agent({ args, agent: number, buffers }) {
  PROGRAMS[args[0]].agent({ words: new Int32Array(buffers[0]), agent: number });
}

export function check(buffers, run) {
  return PROGRAMS[run.args[0]].check?.(buffers, run);
}
