// Right: a deque with as many slots as tasks, so that none is written twice. Each task is taken once.

import { Deque } from "./shared/deque.mjs";

export const setup = { agents: 3, buffers: [8, 24, 12] };

export default function agent({ buffers, agent }) {
  const deque = new Deque(new Int32Array(buffers[0]), new Float64Array(buffers[1]));
  const counts = new Int32Array(buffers[2]);
  const count = (task) => task === undefined || Atomics.add(counts, task * 2 - 1, 1);
  if (agent > 0) {
    count(deque.steal());
    return;
  }
  for (const task of [0.5, 1, 1.5]) deque.push(task);
  for (let time = 0; time < 3; time += 1) count(deque.pop());
}

export function check(buffers) {
  const counts = new Int32Array(buffers[2]).join();
  if (counts !== "1,1,1") throw new Error(`the tasks were done ${counts} times`);
}

export const known = { endings: ["finished"] };
