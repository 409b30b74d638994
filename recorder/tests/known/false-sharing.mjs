// Right, if slow on a machine: each agent has a counter of its own beside the others', and they are summed up at the
// end.

export const setup = { agents: 4, buffers: [4, 32] };

export default function agent({ buffers, agent }) {
  const words = new Int32Array(buffers[0]);
  const counters = new Float64Array(buffers[1]);
  for (let time = 0; time < 3; time += 1) {
    counters[agent] += 0.5;
    Atomics.add(words, 0, 1);
  }
}

export function check(buffers) {
  const sum = new Float64Array(buffers[1]).reduce((one, other) => one + other);
  if (sum !== 6 || new Int32Array(buffers[0])[0] !== 12) throw new Error(`the counters give ${sum}`);
}

export const known = { endings: ["finished"] };
