// Right: each agent writes its part and counts down. Who counts to zero has read what all the others left, one after
// the other.

export const setup = { agents: 4, buffers: [4, 40] };

const TOTAL = 4;

export function init(buffers) {
  new Int32Array(buffers[0])[0] = 4;
}

export default function agent({ buffers, agent, agents }) {
  const left = new Int32Array(buffers[0]);
  const parts = new Float64Array(buffers[1]);
  parts[agent] = (agent + 1) * 1.5;
  if (Atomics.sub(left, 0, 1) === 1) {
    for (let at = 0; at < agents; at += 1) parts[TOTAL] += parts[at];
  }
}

export function check(buffers) {
  const total = new Float64Array(buffers[1])[TOTAL];
  if (total !== 15) throw new Error(`the parts give ${total}`);
}

export const known = { endings: ["finished"] };
