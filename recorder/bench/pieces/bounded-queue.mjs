// Right: a bounded queue of two producers and two consumers over a lock. Its two counts serve as conditions.

export const setup = {
  agents: 4, buffers: [12, 12], names: { LOCK: 0, PUT: 1, TAKEN: 2, items: ["Int32", 1] },
};

const LOCK = 0;
const PUT = 1;
const TAKEN = 2;
const CAPACITY = 2;
const SUM = 2;
const EACH = 2;

function lock(words) {
  while (Atomics.compareExchange(words, LOCK, 0, 1) !== 0) Atomics.wait(words, LOCK, 1);
}

function unlock(words) {
  Atomics.store(words, LOCK, 0);
  Atomics.notify(words, LOCK, 1);
}

/** Sleeps without the lock until a count goes on. */
function sleepAt(words, count) {
  const seen = Atomics.load(words, count);
  unlock(words);
  Atomics.wait(words, count, seen);
  lock(words);
}

function put(words, items, item) {
  lock(words);
  while (Atomics.load(words, PUT) - Atomics.load(words, TAKEN) === CAPACITY) sleepAt(words, TAKEN);
  items[Atomics.load(words, PUT) % CAPACITY] = item;
  Atomics.add(words, PUT, 1);
  Atomics.notify(words, PUT, 1);
  unlock(words);
}

function take(words, items) {
  lock(words);
  while (Atomics.load(words, PUT) === Atomics.load(words, TAKEN)) sleepAt(words, PUT);
  items[SUM] += items[Atomics.load(words, TAKEN) % CAPACITY];
  Atomics.add(words, TAKEN, 1);
  Atomics.notify(words, TAKEN, 1);
  unlock(words);
}

export default function agent({ buffers, agent: self }) {
  const words = new Int32Array(buffers[0]);
  const items = new Int32Array(buffers[1]);
  for (let time = 0; time < EACH; time += 1) {
    if (self < 2) put(words, items, 10 ** (EACH * self + time));
    else take(words, items);
  }
}

export const check = (buffers) => new Int32Array(buffers[1])[SUM] === 1111;
