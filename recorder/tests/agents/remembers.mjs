// Agents whose module keeps what was before: every other run of a worker has a race, and none leaves the same bytes.

export const setup = { agents: 2, buffers: [12] };

let runs = 0;

export default function agent({ buffers, agent: number }) {
  const words = new Int32Array(buffers[0]);
  runs += 1;
  if (runs % 2 === 1) words[0] = number + 1;
  Atomics.store(words, 1 + number, runs);
}
