// Wrong: a pop gives its slot free before it has read the ordinary byte in it.

export const setup = { agents: 2, buffers: [8, 2] };

const HEAD = 0;
const TAIL = 1;
const ITEMS = 3;

function push(words, slots, item) {
  const tail = Atomics.load(words, TAIL);
  for (let head = Atomics.load(words, HEAD); tail - head === slots.length; head = Atomics.load(words, HEAD)) {
    Atomics.wait(words, HEAD, head);
  }
  slots[tail % slots.length] = item;
  Atomics.store(words, TAIL, tail + 1);
  Atomics.notify(words, TAIL, 1);
}

function pop(words, slots) {
  const head = Atomics.load(words, HEAD);
  while (Atomics.load(words, TAIL) === head) Atomics.wait(words, TAIL, head);
  Atomics.store(words, HEAD, head + 1);
  Atomics.notify(words, HEAD, 1);
  return slots[head % slots.length];
}

export default function agent({ buffers: [first, second], agent: self }) {
  const words = new Int32Array(first);
  const slots = new Uint8Array(second);
  for (let item = 1; item <= ITEMS; item += 1) {
    if (self === 0) push(words, slots, item);
    else if (pop(words, slots) !== item) throw new Error(`item ${item} isn't the one that was pushed`);
  }
}
