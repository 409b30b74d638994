// Agents that look at clocks and draw random numbers. The arguments name what for, run by run; the last one goes on.

import { getRandomValues, randomUUID } from "node:crypto";

// While a module is being loaded the run hasn't begun.
const AT_LOADING = [Date.now(), performance.now()];

/** A random number below a count, drawn in several ways. */
const DRAWS = [
  (count) => Math.floor(Math.random() * count),
  (count) => getRandomValues(new Uint32Array(1))[0] % count,
  (count) => crypto.getRandomValues(new Uint8Array(4))[3] % count,
  (count) => parseInt(randomUUID().slice(0, 8), 16) % count,
];

const CLOCKS = [
  () => performance.now(),
  () => Date.now(),
  () => new Date().getTime(),
  () => process.hrtime()[0] * 1_000 + process.hrtime()[1] / 1_000_000,
  () => Number(process.hrtime.bigint()) / 1_000_000,
];

const PROGRAMS = {
  // What each does rests on clocks and on chance alone.
  acts: ({ words, agent }) => {
    for (let time = 0; time < 6; time += 1) {
      Atomics.add(words, DRAWS[time % DRAWS.length](8), 1 + DRAWS[(time + 1) % DRAWS.length](1_000));
      const now = CLOCKS[time % CLOCKS.length]();
      if (Math.floor(now * 100) % 2 === agent) Atomics.exchange(words, 8 + agent, Math.floor(now * 100) % 1_000);
      Atomics.wait(words, 15, 0, Math.random());
    }
  },
  // How long each clock says that a wait of 50 ms took, in hundredths of a millisecond.
  waits: ({ words }) => {
    for (let clock = 0; clock < CLOCKS.length; clock += 1) {
      const begin = CLOCKS[clock]();
      const answer = Atomics.wait(words, 15, 0, 50);
      const took = CLOCKS[clock]() - begin;
      if (answer !== "timed-out") throw new Error(answer);
      Atomics.store(words, clock, Math.round(took * 100));
    }
  },
  // A wait on words of its own takes the run's time too.
  sleeps: ({ words }) => {
    const begin = performance.now();
    Atomics.wait(new Int32Array(new SharedArrayBuffer(4)), 0, 0, 60_000);
    Atomics.store(words, 0, Math.floor((performance.now() - begin) / 1_000));
  },
  // What the clocks show at first, and showed at loading.
  begins: ({ words }) => {
    const EPOCH = Date.UTC(2000, 0, 1);
    const now = performance.now();
    Atomics.store(words, 0, Math.round(now * 100));
    Atomics.store(words, 1, Date.now() - EPOCH);
    Atomics.store(words, 2, new Date().getFullYear());
    Atomics.store(words, 3, AT_LOADING[0] - EPOCH);
    Atomics.store(words, 4, AT_LOADING[1]);
  },
  // Agent 0 waits again and again, for what never comes; agent 1 makes calls, each of which does something new.
  naps: ({ words, agent }) => {
    for (let time = 0; time < 600; time += 1) {
      if (agent === 1) Atomics.store(words, 0, time);
      else if (Atomics.wait(words, 15, 0, 5) !== "timed-out") throw new Error("who woke it?");
    }
  },
  // The time in seconds, and a draw of each agent.
  shows: ({ words, agent }) => {
    Atomics.store(words, 0, Math.floor(Date.now() / 1_000));
    Atomics.store(words, 1 + agent, DRAWS[0](1_000_000));
  },
};

export const setup = { agents: 2, buffers: [64] };

let runs = 0;

export default function agent({ buffers, agent, args }) {
  const name = args[Math.min(runs, args.length - 1)];
  runs += 1;
  PROGRAMS[name]({ words: new Int32Array(buffers[0]), agent });
}
