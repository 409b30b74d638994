// Wrong: the owner takes the last task without asking the thieves, and one of them may have it too.

import { BOTTOM, Deque, TOP } from "./shared/deque.mjs";

export const setup = { agents: 2, buffers: [8, 8, 4] };

class Hasty extends Deque {
  pop() {
    const bottom = Atomics.sub(this.words, BOTTOM, 1) - 1;
    if (Atomics.load(this.words, TOP) <= bottom) return this.tasks[bottom % this.tasks.length];
    Atomics.store(this.words, BOTTOM, bottom + 1);
    return undefined;
  }
}

export default function agent({ buffers, agent }) {
  const deque = new Hasty(new Int32Array(buffers[0]), new Float64Array(buffers[1]));
  const counts = new Int32Array(buffers[2]);
  const count = (task) => task === undefined || Atomics.add(counts, task * 2 - 1, 1);
  if (agent === 0) {
    deque.push(0.5);
    count(deque.pop());
  } else {
    count(deque.steal());
  }
}

export function check(buffers) {
  const [count] = new Int32Array(buffers[2]);
  if (count !== 1) throw new Error(`the task was done ${count} times`);
}

export const known = { endings: ["finished", "check"] };
