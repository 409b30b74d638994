// Wrong: a consumer that was woken takes without looking again (`if` in place of `while`), so it may find nothing.

export const setup = { agents: 3, buffers: [32] };

const LOCK = 0;
const SEQUENCE = 1;
const COUNT = 2;

const lock = (words) => {
  while (Atomics.compareExchange(words, LOCK, 0, 1) !== 0) Atomics.wait(words, LOCK, 1);
};
const unlock = (words) => {
  Atomics.store(words, LOCK, 0);
  Atomics.notify(words, LOCK, 1);
};
const waitForSignal = (words) => {
  const seen = Atomics.load(words, SEQUENCE);
  unlock(words);
  Atomics.wait(words, SEQUENCE, seen);
  lock(words);
};
const signal = (words) => {
  Atomics.add(words, SEQUENCE, 1);
  Atomics.notify(words, SEQUENCE);
};

export default function agent({ buffers, agent: self }) {
  const words = new Int32Array(buffers[0]);
  const isProducer = self === 0;
  for (let time = 0; time < (isProducer ? 4 : 2); time += 1) {
    lock(words);
    if (isProducer) {
      while (Atomics.load(words, COUNT) === 1) waitForSignal(words);
      Atomics.add(words, COUNT, 1);
    } else {
      if (Atomics.load(words, COUNT) === 0) waitForSignal(words);
      if (Atomics.sub(words, COUNT, 1) !== 1) throw new Error("it took from an empty buffer");
    }
    signal(words);
    unlock(words);
  }
}
