// Agents that go on and on: agent 0 makes a call, agent 1 waits for what never comes. The arguments name in which way,
// run by run; the last one goes on.

const WAYS = {
  load: ({ words }) => {
    while (Atomics.load(words, 1) === 0);
  },
  compareExchange: ({ words }) => {
    while (Atomics.compareExchange(words, 1, 1, 2) !== 1);
  },
  ordinary: ({ words }) => {
    while (words[1] === 0);
  },
  alternately: ({ words }) => {
    let at = 1;
    do at = 3 - at;
    while (words[at] === 0);
  },
  // It comes on, with each call.
  counts: ({ words }) => {
    for (let count = 0; count < 100_000; count += 1) Atomics.add(words, 1, 1);
  },
  // It comes on as well, from one to the next.
  strides: ({ words }) => {
    for (let at = 0; at < 100_000; at += 1) Atomics.store(words, at % 16, at);
  },
  // These take their time in a run, and end.
  deadline: ({ words }) => {
    for (const end = performance.now() + 50; performance.now() < end;);
    for (const begin = Date.now(); Date.now() === begin;);
    Atomics.store(words, 1, Math.floor(performance.now()));
  },
  // It never comes back.
  nothing: () => {
    for (let turns = 0; ; turns += 1);
  },
};

export const setup = { agents: 2, buffers: [64] };

let runs = 0;

export default function agent({ buffers, agent, args }) {
  const way = args[Math.min(runs, args.length - 1)];
  runs += 1;
  const words = new Int32Array(buffers[0]);
  if (agent === 0) Atomics.load(words, 0);
  else WAYS[way]({ words });
}
