// Right: a ticket lock whose waiters sleep on the number that is served, and are all woken when it goes on.

export const setup = { agents: 3, buffers: [12], names: { TICKET: 0, SERVED: 1, COUNT: 2 } };

const TICKET = 0;
const SERVED = 1;
const COUNT = 2;
const ROUNDS = 2;

function lock(words) {
  const ticket = Atomics.add(words, TICKET, 1);
  let served = Atomics.load(words, SERVED);
  while (served !== ticket) {
    Atomics.wait(words, SERVED, served);
    served = Atomics.load(words, SERVED);
  }
}

function unlock(words) {
  Atomics.add(words, SERVED, 1);
  Atomics.notify(words, SERVED);
}

export default function agent({ buffers }) {
  const words = new Int32Array(buffers[0]);
  for (let time = 0; time < ROUNDS; time += 1) {
    lock(words);
    words[COUNT] += 1;
    unlock(words);
  }
}

export const check = ([buffer], { agents }) => new Int32Array(buffer)[COUNT] === ROUNDS * agents;
