// Agent 0 puts the numbers from 1 on into a queue of two slots, and agent 1 takes them and looks at their order.

import { BoundedQueue } from "./bounded-queue.mjs";

/** @type {import("sabsim").Setup} */
export const setup = { agents: 2, buffers: [16] };

/** @type {import("sabsim").Agent} */
export default function agent({ buffers, agent, args }) {
  const queue = new BoundedQueue(new Int32Array(buffers[0]));
  const count = Number(args[0] ?? 6);
  for (let number = 1; number <= count; number += 1) {
    if (agent === 0) {
      queue.put(number);
    } else {
      const taken = queue.take();
      if (taken !== number) throw new Error(`took ${taken} where ${number} comes next`);
    }
  }
}
