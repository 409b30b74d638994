// Wrong: each adds one by a load and a store. Nothing races, but one of two may be lost.

export const setup = { agents: 2, buffers: [4] };

export default function agent({ buffers }) {
  const words = new Int32Array(buffers[0]);
  Atomics.store(words, 0, Atomics.load(words, 0) + 1);
}

export function check(buffers) {
  const [count] = new Int32Array(buffers[0]);
  if (count !== 2) throw new Error(`counted to ${count}`);
}

export const known = { endings: ["finished", "check"] };
