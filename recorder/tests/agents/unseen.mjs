// Programs whose scripts don't show all that their agents access. The first argument names one of them, the second one
// is its number.

const PROGRAMS = {
  // Each access is by Atomics.
  atomics: ({ words, agent }) => {
    if (agent === 0) Atomics.store(words, 0, 1);
    else Atomics.load(words, 0);
  },
  // Agent 0 stores, and agent 1 reads the same word without Atomics. Nothing orders the two.
  reads: ({ words, agent }) => {
    if (agent === 0) Atomics.store(words, 0, 1);
    else words.at(0);
  },
  // Agent 0 loads by so many typed arrays.
  views: ({ words, agent }, count) => {
    for (let at = 0; agent === 0 && at < count; at += 1) Atomics.load(new Int32Array(words.buffer, 4 * at, 1), 0);
  },
  // The same, and then it reads a word without Atomics.
  viewsAndRead: ({ words, agent }, count) => {
    PROGRAMS.views({ words, agent }, count);
    if (agent === 0) words.at(0);
  },
};

export const setup = { agents: 2, buffers: [256] };

export default function agent({ buffers, agent, args: [name, number] }) {
  PROGRAMS[name]({ words: new Int32Array(buffers[0]), agent }, Number(number));
}
