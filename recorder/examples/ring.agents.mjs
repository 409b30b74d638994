// Four bytes go through two slots: agent 0 pushes them, and agent 1 pops them and looks at their order.

import { Ring } from "./ring.mjs";

/** @type {import("sabsim").Setup} */
export const setup = { agents: 2, buffers: [8, 2], names: { HEAD: 0, TAIL: 1, slots: ["Uint8", 1] } };

const BYTES = [10, 20, 30, 40];

/** @type {import("sabsim").Agent} */
export default function agent({ buffers, agent }) {
  const ring = new Ring(new Int32Array(buffers[0]), new Uint8Array(buffers[1]));
  for (const byte of BYTES) {
    if (agent === 0) ring.push(byte);
    else if (ring.pop() !== byte) throw new Error(`popped something else than ${byte}`);
  }
}
