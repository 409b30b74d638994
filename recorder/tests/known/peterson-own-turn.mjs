// Wrong: each gives the turn to itself, so that the second one goes in too.

import { Peterson } from "./shared/peterson.mjs";

export const setup = { agents: 2, buffers: [12, 4] };

export default function agent({ buffers, agent }) {
  const lock = new Peterson(new Int32Array(buffers[0]), agent, agent);
  const count = new Uint32Array(buffers[1]);
  lock.lock();
  count[0] += 1;
  lock.unlock();
}

export const known = { endings: ["finished", "race"], races: [["count\\[0\\] \\+= 1", "count\\[0\\] \\+= 1"]] };
