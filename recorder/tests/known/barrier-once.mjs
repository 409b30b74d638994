// Wrong: one barrier for each phase. Who is fast writes its cell of the next phase while others read. Nothing races
// where the fast one waits at the next barrier before the slow one has left the first: the critical sections of the
// word's waiters order them, and the slow one reads the wrong cell all the same.

import { Barrier } from "./shared/barrier.mjs";

export const setup = { agents: 2, buffers: [8, 16] };

export default function agent({ buffers, agent, agents }) {
  const barrier = new Barrier(new Int32Array(buffers[0]), agents);
  const cells = new Float64Array(buffers[1]);
  const sums = [];
  for (let phase = 1; phase <= 2; phase += 1) {
    cells[agent] = phase * (agent + 1);
    barrier.arrive();
    sums.push(cells[0] + cells[1]);
  }
}

export const known = {
  endings: ["finished", "race"],
  races: [["cells\\[agent\\] = ", "cells\\[0\\] \\+ cells\\[1\\]"]],
};
