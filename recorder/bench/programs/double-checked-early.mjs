// Wrong: double-checked initialization says that the data is ready before it is written.

export const setup = { agents: 3, buffers: [16] };

const LOCK = 0;
const READY = 1;
const DATA = 2;

export default function agent({ buffers }) {
  const words = new Int32Array(buffers[0]);
  if (Atomics.load(words, READY) === 0) {
    while (Atomics.compareExchange(words, LOCK, 0, 1) !== 0) Atomics.wait(words, LOCK, 1);
    if (Atomics.load(words, READY) === 0) {
      Atomics.store(words, READY, 1);
      Atomics.store(words, DATA, 42);
    }
    Atomics.store(words, LOCK, 0);
    Atomics.notify(words, LOCK, 1);
  }
  if (Atomics.load(words, DATA) !== 42) throw new Error("the data isn't there");
}
