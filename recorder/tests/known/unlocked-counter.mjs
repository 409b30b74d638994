// Wrong: a counter of two agents without a lock; one of them has another call before it.

export const setup = { agents: 2, buffers: [8] };

export default function agent({ buffers, agent }) {
  const words = new Uint32Array(buffers[0]);
  if (agent === 1) Atomics.add(words, 0, 1);
  words[1] += 1;
  if (agent === 0) Atomics.add(words, 0, 1);
}

export const known = { endings: ["finished", "race"], races: [["words\\[1\\] \\+= 1", "words\\[1\\] \\+= 1"]] };
