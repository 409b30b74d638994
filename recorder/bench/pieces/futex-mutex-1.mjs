// Right in runs of this length: Drepper's first mutex, which counts. Its sleepers may wake each other again and again.

export const setup = { agents: 3, buffers: [8], names: { LOCK: 0, COUNT: 1 } };

const LOCK = 0;
const COUNT = 1;
const ROUNDS = 3;

function lock(words) {
  for (;;) {
    const before = Atomics.add(words, LOCK, 1);
    if (before === 0) return;
    Atomics.wait(words, LOCK, before + 1);
  }
}

function unlock(words) {
  Atomics.store(words, LOCK, 0);
  Atomics.notify(words, LOCK, 1);
}

export default function agent({ buffers }) {
  const words = new Int32Array(buffers[0]);
  for (let time = 0; time < ROUNDS; time += 1) {
    lock(words);
    words[COUNT] += 1;
    unlock(words);
  }
}

export const check = ([buffer], { agents }) => new Int32Array(buffer)[COUNT] === ROUNDS * agents;
