// Right: a work-stealing pool. Its owner takes tasks from the front of its range, and helpers steal from the back.

export const setup = { agents: 3, buffers: [40], names: { EPOCH: 0, OVER: 1, DONE: 2, RANGE: 3 } };

// Goes on when there is work, and at the end: helpers sleep on it.
const EPOCH = 0;
const OVER = 1;
const DONE = 2;
// 16 times the first task that is left, and the number behind the last.
const RANGE = 3;
const TIMES = 4;
const BATCH = 3;
const BATCHES = 2;

/** Takes a task out of the range and does it, or returns false if none is left. */
function work(words, self) {
  const range = Atomics.load(words, RANGE);
  const [first, end] = [range >> 4, range % 16];
  if (first === end) return false;
  const rest = self === 0 ? range + 16 : range - 1;
  if (Atomics.compareExchange(words, RANGE, range, rest) !== range) return true;
  Atomics.add(words, TIMES + (self === 0 ? first : end - 1), 1);
  if (Atomics.add(words, DONE, 1) % BATCH === BATCH - 1) Atomics.notify(words, DONE);
  return true;
}

/** The owner's: shares a batch of tasks out, works itself, and sleeps until the last task is done. */
function share(words, first) {
  Atomics.store(words, RANGE, 16 * first + first + BATCH);
  Atomics.add(words, EPOCH, 1);
  Atomics.notify(words, EPOCH);
  while (work(words, 0));
  for (let done = Atomics.load(words, DONE); done < first + BATCH; done = Atomics.load(words, DONE)) {
    Atomics.wait(words, DONE, done);
  }
}

function help(words, self) {
  for (;;) {
    const epoch = Atomics.load(words, EPOCH);
    while (work(words, self));
    if (Atomics.load(words, OVER) === 1) return;
    Atomics.wait(words, EPOCH, epoch);
  }
}

export default function agent({ buffers, agent: self }) {
  const words = new Int32Array(buffers[0]);
  if (self > 0) {
    help(words, self);
    return;
  }
  for (let batch = 0; batch < BATCHES; batch += 1) share(words, BATCH * batch);
  Atomics.store(words, OVER, 1);
  Atomics.add(words, EPOCH, 1);
  Atomics.notify(words, EPOCH, Infinity);
}

export const check = ([buffer]) => new Int32Array(buffer).subarray(TIMES).every((times) => times === 1);
