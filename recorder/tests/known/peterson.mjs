// Right: Peterson's lock for two. Who comes in reads what the other one wrote when it left, or when it came again.

import { Peterson } from "./shared/peterson.mjs";

export const setup = { agents: 2, buffers: [12, 4] };

export default function agent({ buffers, agent }) {
  const lock = new Peterson(new Int32Array(buffers[0]), agent);
  const count = new Uint32Array(buffers[1]);
  for (let time = 0; time < 2; time += 1) {
    lock.lock();
    count[0] += 1;
    lock.unlock();
  }
}

export function check(buffers) {
  const [count] = new Uint32Array(buffers[1]);
  if (count !== 4) throw new Error(`counted to ${count}`);
}

export const known = { endings: ["finished"] };
