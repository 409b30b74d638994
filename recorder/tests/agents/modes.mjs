// Programs with ordinary accesses, whose answers are known in each of the modes. Each run of a worker is that of the
// next program, but where the first argument names one.

import { Mutex } from "../known/shared/mutex.mjs";

export const PROGRAMS = {
  // Each adds twice, between its calls.
  counter: ({ buffers }) => {
    const mutex = new Mutex(new Int32Array(buffers[0]));
    const count = new Uint16Array(buffers[1]);
    for (let time = 0; time < 2; time += 1) {
      mutex.lock();
      count[0] += 1;
      mutex.unlock();
    }
  },
  // Both add before anybody's call: whatever the schedule is, these accesses race.
  unlocked: ({ buffers }) => {
    const count = new Uint16Array(buffers[1]);
    count[0] += 1;
    Atomics.load(new Int32Array(buffers[0]), 0);
  },
  // One alone writes, in bytes that no call touches.
  writes: ({ buffers, agent }) => {
    const words = new Int32Array(buffers[0]);
    if (agent === 0) {
      const bytes = new DataView(buffers[1]);
      bytes.setInt16(1, -2);
      bytes.setFloat32(4, 1.5, true);
      Atomics.store(words, 0, 1);
      new Uint8ClampedArray(buffers[1])[3] = 300;
      new Float32Array(buffers[1])[2] = -0.5;
      new Float64Array(buffers[1], 16)[0] = 0.1;
      Atomics.store(words, 0, 2);
      new BigInt64Array(buffers[1])[3] = -3n;
    }
    Atomics.load(words, 0);
  },
  // Agent 0 sleeps for ever after a call, an ordinary write, and two more calls that are the same in each mode.
  sleeps: ({ buffers, agent }) => {
    const words = new Int32Array(buffers[0]);
    const bytes = new Uint8Array(buffers[1]);
    Atomics.load(words, 0);
    if (agent !== 0) return;
    bytes[5] = 1;
    Atomics.load(words, 0);
    bytes[5] = 2;
    Atomics.wait(words, 0, 0);
  },
};

export const setup = { agents: 2, buffers: [4, 32] };

const NAMES = Object.keys(PROGRAMS);

let runs = 0;

export default function agent({ args, ...rest }) {
  const [name = NAMES[runs % NAMES.length]] = args;
  runs += 1;
  PROGRAMS[name](rest);
}
