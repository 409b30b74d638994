// Right: each phase writes the agents' own cells, and reads them all between two barriers.

import { Barrier } from "./shared/barrier.mjs";

export const setup = { agents: 3, buffers: [8, 24] };

export default function agent({ buffers, agent, agents }) {
  const barrier = new Barrier(new Int32Array(buffers[0]), agents);
  const cells = new Float64Array(buffers[1]);
  for (let phase = 1; phase <= 2; phase += 1) {
    cells[agent] = phase * (agent + 1);
    barrier.arrive();
    const sum = cells.reduce((one, other) => one + other, 0);
    if (sum !== phase * 6) throw new Error(`the cells of phase ${phase} give ${sum}`);
    barrier.arrive();
  }
}

export const known = { endings: ["finished"] };
