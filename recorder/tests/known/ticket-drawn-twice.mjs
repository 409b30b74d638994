// Wrong: a ticket is drawn by a load and a store, so two may have the same one. Either both go in, or one comes when
// its ticket has been served already, and waits for ever.

import { TicketLock } from "./shared/ticket-lock.mjs";

export const setup = { agents: 2, buffers: [8, 4] };

function draw(words, at) {
  const ticket = Atomics.load(words, at);
  Atomics.store(words, at, ticket + 1);
  return ticket;
}

export default function agent({ buffers }) {
  const lock = new TicketLock(new Int32Array(buffers[0]), draw);
  const count = new Int16Array(buffers[1]);
  lock.lock();
  count[0] += 1;
  lock.unlock();
}

export const known = {
  endings: ["finished", "race", "deadlock"],
  races: [["count\\[0\\] \\+= 1", "count\\[0\\] \\+= 1"]],
};
