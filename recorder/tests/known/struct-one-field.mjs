// Wrong: all fields are written under the mutex, but one of them is read without it. The others are safe.

import { Mutex } from "./shared/mutex.mjs";

export const setup = { agents: 2, buffers: [16] };

export default function agent({ buffers, agent }) {
  const mutex = new Mutex(new Int32Array(buffers[0], 0, 1));
  const size = new Uint16Array(buffers[0], 4, 1);
  const weight = new Float64Array(buffers[0], 8, 1);
  if (agent === 0) {
    mutex.lock();
    size[0] = 3;
    weight[0] = 0.5;
    mutex.unlock();
  } else {
    mutex.lock();
    const known = weight[0] !== 0;
    mutex.unlock();
    if (known && size[0] !== 3) throw new Error("the size is missing");
    if (!known && size[0] > 3) throw new Error("the size is too large");
  }
}

export const known = { endings: ["finished", "race"], races: [["size\\[0\\] = 3", "!known && size"]] };
