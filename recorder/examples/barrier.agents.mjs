// Three agents do a piece of work each and meet at the barrier, round after round. After the barrier all work of the
// round is done, and no agent can be further than the next round.

import { Barrier } from "./barrier.mjs";

/** @type {import("sabsim").Setup} */
export const setup = { agents: 3, buffers: [12] };

/** @type {import("sabsim").Agent} */
export default function agent({ buffers, agents, args }) {
  const barrier = new Barrier(new Int32Array(buffers[0], 0, 2), agents);
  const done = new Int32Array(buffers[0], 8, 1);
  const rounds = Number(args[0] ?? 4);
  for (let round = 1; round <= rounds; round += 1) {
    Atomics.add(done, 0, 1);
    barrier.arrive();
    const pieces = Atomics.load(done, 0);
    const [least, most] = [agents * round, agents * (round + 1) - 1];
    if (pieces < least || pieces > most) {
      throw new Error(`behind barrier ${round} there are ${pieces} pieces of work: ${least} to ${most} can be`);
    }
  }
}
