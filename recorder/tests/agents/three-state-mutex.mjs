// Three agents count under the mutex of three states: free, taken, and taken with somebody who may wait.

export const setup = { agents: 3, buffers: [8] };

const FREE = 0;
const TAKEN = 1;
const WAITED_FOR = 2;

function lock(words) {
  let state = Atomics.compareExchange(words, 0, FREE, TAKEN);
  while (state !== FREE) {
    if (state === WAITED_FOR || Atomics.compareExchange(words, 0, TAKEN, WAITED_FOR) !== FREE) {
      Atomics.wait(words, 0, WAITED_FOR);
    }
    state = Atomics.compareExchange(words, 0, FREE, WAITED_FOR);
  }
}

function unlock(words) {
  if (Atomics.sub(words, 0, 1) !== TAKEN) {
    Atomics.store(words, 0, FREE);
    Atomics.notify(words, 0, 1);
  }
}

export default function agent({ buffers }) {
  const words = new Int32Array(buffers[0]);
  for (let time = 0; time < 3; time += 1) {
    lock(words);
    Atomics.store(words, 1, Atomics.load(words, 1) + 1);
    unlock(words);
  }
}
