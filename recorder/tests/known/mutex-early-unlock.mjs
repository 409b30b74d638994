// Wrong: the sum is read under the mutex, but written when it is unlocked already.

import { Mutex } from "./shared/mutex.mjs";

export const setup = { agents: 2, buffers: [4, 8] };

export default function agent({ buffers }) {
  const mutex = new Mutex(new Int32Array(buffers[0]));
  const total = new Float64Array(buffers[1]);
  mutex.lock();
  const next = total[0] + 1;
  mutex.unlock();
  total[0] = next;
}

export const known = {
  endings: ["race"],
  races: [["total\\[0\\] = next", "next = total\\[0\\]"], ["total\\[0\\] = next", "total\\[0\\] = next"]],
};
