// Right: who comes draws a ticket, and waits until it is served.

import { TicketLock } from "./shared/ticket-lock.mjs";

export const setup = { agents: 3, buffers: [8, 6] };

export default function agent({ buffers, agent }) {
  const lock = new TicketLock(new Int32Array(buffers[0]), (words, at) => Atomics.add(words, at, 1));
  const names = new Uint16Array(buffers[1]);
  lock.lock();
  names.copyWithin(1, 0);
  names[0] = agent + 1;
  lock.unlock();
}

export function check(buffers) {
  const names = [...new Uint16Array(buffers[1])].sort().join();
  if (names !== "1,2,3") throw new Error(`the agents that came were ${names}`);
}

export const known = { endings: ["finished"] };
