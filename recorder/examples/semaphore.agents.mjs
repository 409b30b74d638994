// Four agents share two permits, which agent 0 hands out. An agent that gets none within its time gives up that round.

import { Semaphore } from "./semaphore.mjs";

const PERMITS = 2;

/** @type {import("sabsim").Setup} */
export const setup = { agents: 4, buffers: [8] };

/** @type {import("sabsim").Agent} */
export default function agent({ buffers, agent, args }) {
  const semaphore = new Semaphore(new Int32Array(buffers[0], 0, 1));
  const inside = new Int32Array(buffers[0], 4, 1);
  if (agent === 0) for (let permit = 0; permit < PERMITS; permit += 1) semaphore.release();
  const rounds = Number(args[0] ?? 3);
  for (let round = 0; round < rounds; round += 1) {
    if (!semaphore.acquire(50)) continue;
    const others = Atomics.add(inside, 0, 1);
    if (others >= PERMITS) throw new Error(`${others + 1} agents are inside, and there are ${PERMITS} permits`);
    Atomics.sub(inside, 0, 1);
    semaphore.release();
  }
}
