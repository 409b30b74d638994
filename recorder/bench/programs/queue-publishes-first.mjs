// Wrong: a producer moves the end of the queue before it has written its item, and a consumer may read the old one.

export const setup = { agents: 3, buffers: [32] };

const TAIL = 0;
const HEAD = 1;
const ITEMS = 2;

export default function agent({ buffers, agent: self }) {
  const words = new Int32Array(buffers[0]);
  for (let time = 0; time < 2; time += 1) {
    if (self < 2) {
      const place = Atomics.add(words, TAIL, 1);
      Atomics.store(words, ITEMS + place, 7);
      Atomics.notify(words, TAIL, 1);
      continue;
    }
    const place = Atomics.add(words, HEAD, 1);
    for (let tail = Atomics.load(words, TAIL); tail <= place; tail = Atomics.load(words, TAIL)) {
      Atomics.wait(words, TAIL, tail);
    }
    if (Atomics.load(words, ITEMS + place) !== 7) throw new Error(`there is no item at ${place}`);
  }
}
