// A race by design: the deque's one slot is written anew while a late thief reads it. What the thief read it throws
// away, since its compareExchange fails; by ECMA-262 the read races.

import { Deque } from "./shared/deque.mjs";

export const setup = { agents: 2, buffers: [8, 8, 8] };

export default function agent({ buffers, agent }) {
  const deque = new Deque(new Int32Array(buffers[0]), new Float64Array(buffers[1]));
  const counts = new Int32Array(buffers[2]);
  const count = (task) => task === undefined || Atomics.add(counts, task * 2 - 1, 1);
  if (agent === 0) {
    for (const task of [0.5, 1]) {
      deque.push(task);
      count(deque.pop());
    }
  } else {
    count(deque.steal());
  }
}

export function check(buffers) {
  const counts = new Int32Array(buffers[2]).join();
  if (counts !== "1,1") throw new Error(`the tasks were done ${counts} times`);
}

export const known = {
  endings: ["finished", "race"],
  races: [["this\\.tasks\\[bottom % this\\.tasks\\.length\\] = task", "const task = this\\.tasks\\[top"]],
};
