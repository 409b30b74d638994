// Wrong: the one permit is found by a load and taken by a store, so that two may have it.

import { Semaphore } from "./shared/semaphore.mjs";

export const setup = { agents: 2, buffers: [4, 8] };

class LoadStoreSemaphore extends Semaphore {
  acquire() {
    for (;;) {
      const permits = Atomics.load(this.words, 0);
      if (permits > 0) {
        Atomics.store(this.words, 0, permits - 1);
        return;
      }
      Atomics.wait(this.words, 0, 0);
    }
  }
}

export function init(buffers) {
  new Int32Array(buffers[0])[0] = 1;
}

export default function agent({ buffers }) {
  const semaphore = new LoadStoreSemaphore(new Int32Array(buffers[0]));
  const used = new BigInt64Array(buffers[1]);
  semaphore.acquire();
  used[0] += 1n;
  semaphore.release();
}

export const known = { endings: ["finished", "race"], races: [["used\\[0\\] \\+= 1n", "used\\[0\\] \\+= 1n"]] };
