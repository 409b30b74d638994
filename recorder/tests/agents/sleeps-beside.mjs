// Agent 0 sleeps for ever, agent 2 for very long, and agent 1 spins.

export const setup = { agents: 3, buffers: [12], names: { BELL: 0, LATE: 2 } };

export default function agent({ buffers, agent: number }) {
  const words = new Int32Array(buffers[0]);
  if (number === 0) Atomics.wait(words, 0, 0);
  if (number === 2) Atomics.wait(words, 2, 0, 1e8);
  while (Atomics.load(words, 1) === 0);
}
