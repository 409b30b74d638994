// Right: an account of floats is touched under a mutex alone.

import { Mutex } from "./shared/mutex.mjs";

export const setup = { agents: 3, buffers: [4, 16] };

export default function agent({ buffers }) {
  const mutex = new Mutex(new Int32Array(buffers[0]));
  const account = new Float64Array(buffers[1]);
  for (let time = 0; time < 2; time += 1) {
    mutex.lock();
    account[0] += 0.5;
    account[1] += account[0];
    mutex.unlock();
  }
}

export function check(buffers) {
  const [sum, sums] = new Float64Array(buffers[1]);
  if (sum !== 3 || sums !== 10.5) throw new Error(`the account has ${sum} and ${sums}`);
}

export const known = { endings: ["finished"] };
