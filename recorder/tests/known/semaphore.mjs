// Right: two permits for two desks, and each desk has a flag that says whose it is.

import { Semaphore } from "./shared/semaphore.mjs";

export const setup = { agents: 3, buffers: [4, 2, 16] };

export function init(buffers) {
  new Int32Array(buffers[0])[0] = 2;
}

export default function agent({ buffers }) {
  const semaphore = new Semaphore(new Int32Array(buffers[0]));
  const taken = new Uint8Array(buffers[1]);
  const desks = new Float64Array(buffers[2]);
  semaphore.acquire();
  const desk = Atomics.compareExchange(taken, 0, 0, 1) === 0 ? 0 : 1;
  if (desk === 1 && Atomics.compareExchange(taken, 1, 0, 1) !== 0) throw new Error("both desks are taken");
  desks[desk] += 1;
  Atomics.store(taken, desk, 0);
  semaphore.release();
}

export function check(buffers) {
  const [one, other] = new Float64Array(buffers[2]);
  if (one + other !== 3) throw new Error(`the desks were used ${one} and ${other} times`);
}

export const known = { endings: ["finished"] };
