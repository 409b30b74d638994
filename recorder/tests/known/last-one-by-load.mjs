// Wrong: who is the last is asked by a load of its own, so that two may find that they are.

export const setup = { agents: 2, buffers: [4, 24] };

const TOTAL = 2;

export function init(buffers) {
  new Int32Array(buffers[0])[0] = 2;
}

export default function agent({ buffers, agent }) {
  const left = new Int32Array(buffers[0]);
  const parts = new Float64Array(buffers[1]);
  parts[agent] = (agent + 1) * 1.5;
  Atomics.sub(left, 0, 1);
  if (Atomics.load(left, 0) === 0) parts[TOTAL] = parts[0] + parts[1];
}

export function check(buffers) {
  const total = new Float64Array(buffers[1])[TOTAL];
  if (total !== 4.5) throw new Error(`the parts give ${total}`);
}

export const known = { endings: ["finished", "race"], races: [["parts\\[TOTAL\\] = ", "parts\\[TOTAL\\] = "]] };
