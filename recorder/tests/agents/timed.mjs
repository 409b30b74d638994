// Agents that wait with times. The first argument names the program.

const TEN = 10;

/** Makes calls that each do something new. */
function work(words, calls) {
  for (let call = 0; call < calls; call += 1) Atomics.store(words, 9, call);
}

/** Notes in which order agents come. */
function come(words, agent) {
  Atomics.store(words, 1 + Atomics.add(words, 0, 1), 1 + agent);
}

const PROGRAMS = {
  // The one whose wait begins first has the longest time; two have the same.
  order: ({ words, agent }) => {
    Atomics.wait(words, 8, 0, [300, 200, 100, 100][agent]);
    come(words, agent);
  },
  // Agent 1 wakes agent 0, which is only wrong if its time is up before. Agents are switched where both go.
  early: ({ words, agent }) => {
    if (agent === 0) Atomics.load(words, 9);
    if (agent === 0 && Atomics.wait(words, 8, 0, 5_000) === "timed-out") throw new Error("nobody has woken it");
    if (agent === 1) work(words, TEN);
    if (agent === 1) while (Atomics.notify(words, 8) === 0) work(words, 1);
  },
  // The same, but in a few runs it fails without that: agent 1 may see what agent 0 does amid other things.
  both: ({ words, agent }) => {
    for (let value = 1; agent === 0 && value <= TEN; value += 1) Atomics.store(words, 7, value);
    if (agent === 1 && Atomics.load(words, 7) === 5) throw new Error("it saw 5");
    PROGRAMS.early({ words, agent });
  },
  // Agent 1 wakes agent 0 only if it has come first; an early end fails in the same way.
  skips: ({ words, agent }) => {
    if (agent === 0) {
      Atomics.store(words, 7, 1);
      if (Atomics.wait(words, 8, 0, 5_000) === "timed-out") throw new Error("nobody has woken it");
    } else if (Atomics.load(words, 7) === 0) while (Atomics.notify(words, 8) === 0);
  },
  // Agent 0 spins until agent 1 has slept.
  spins: ({ words, agent }) => {
    if (agent === 0) while (Atomics.load(words, 0) === 0);
    else {
      Atomics.wait(words, 8, 0, 1_000);
      Atomics.store(words, 0, 1);
    }
  },
  // Agent 0 spins until agent 1 has slept, and then wakes agent 2, which has time left.
  relays: ({ words, agent }) => {
    if (agent === 0) {
      while (Atomics.load(words, 0) === 0);
      while (Atomics.notify(words, 8) === 0);
    } else if (agent === 1) {
      Atomics.wait(words, 9, 0, 100);
      Atomics.store(words, 0, 1);
    } else if (Atomics.wait(words, 8, 0, 5_000) === "timed-out") throw new Error("nobody has woken it");
  },
  // Agent 1 spins for a while, and then wakes agent 0.
  adaptive: ({ words, agent }) => {
    if (agent === 0 && Atomics.wait(words, 8, 0, 5_000) === "timed-out") throw new Error("nobody has woken it");
    if (agent === 0) return;
    for (let turn = 0; turn < 250 && Atomics.load(words, 8) === 0; turn += 1);
    while (Atomics.notify(words, 8) === 0);
  },
  // It polls, a millisecond at a time.
  polls: ({ words, agent }) => {
    if (agent === 0) while (Atomics.load(words, 0) === 0) Atomics.wait(words, 9, 0, 1);
    else {
      Atomics.wait(words, 8, 0, 60_000);
      Atomics.store(words, 0, 1);
    }
  },
  // Nobody wakes agent 0, though the word changes.
  lost: ({ words, agent }) => {
    if (agent === 0) while (Atomics.load(words, 8) === 0) Atomics.wait(words, 8, 0, 500);
    else Atomics.store(words, 8, 1);
  },
  // Another agent changes a byte of the word that isn't its first.
  amid: ({ words, agent }) => {
    if (agent === 0) Atomics.wait(words, 8, 0, 500);
    else Atomics.store(new Uint8Array(words.buffer), 33, 1);
  },
  // Nobody wakes agent 1 at once, though its word changes. Agent 0 would go on by a time, too, but much later.
  crossed: ({ words, agent }) => {
    if (agent === 0) {
      Atomics.store(words, 8, 1);
      Atomics.wait(words, 9, 0, 60_000);
      return;
    }
    if (Atomics.load(words, 8) === 0) Atomics.wait(words, 8, 0, 500);
    Atomics.store(words, 9, 1);
    Atomics.notify(words, 9);
  },
  // Agent 1 is done, and has notified before.
  alone: ({ words, agent }) => {
    if (agent === 0) Atomics.wait(words, 8, 0, 500);
    else Atomics.notify(words, 8);
  },
  // Nobody else knows the word.
  sleeps: ({ words, agent }) => {
    Atomics.wait(words, 8 + agent, 0, 500);
    Atomics.add(words, 0, 1);
  },
  // On a word of its own, and without any time.
  naps: ({ words, agent }) => {
    Atomics.wait(new Int32Array(new SharedArrayBuffer(4)), 0, 0, 500);
    if (Atomics.wait(words, 8, 0, agent - 1) !== "timed-out") throw new Error("who woke it?");
  },
};

export const setup = { agents: 2, buffers: [64] };

export default function agent({ buffers, agent, args }) {
  PROGRAMS[args[0]]({ words: new Int32Array(buffers[0]), agent });
}
