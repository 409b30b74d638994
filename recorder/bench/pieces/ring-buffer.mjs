// Right: a ring buffer of one producer and one consumer. Each owns one count, and the items are ordinary data.

export const setup = { agents: 2, buffers: [8, 12], names: { WRITTEN: 0, READ: 1, items: ["Int32", 1] } };

const WRITTEN = 0;
const READ = 1;
const CAPACITY = 3;
const ITEMS = 6;

/** Writes one item, and sleeps while the ring is full. */
function push(words, items, item) {
  const written = Atomics.load(words, WRITTEN);
  let read = Atomics.load(words, READ);
  while (written - read >= CAPACITY) {
    Atomics.wait(words, READ, read);
    read = Atomics.load(words, READ);
  }
  items[written % CAPACITY] = item;
  Atomics.store(words, WRITTEN, written + 1);
  Atomics.notify(words, WRITTEN, 1);
}

/** Reads all items that are there, and sleeps while there is none. */
function pull(words, items, into) {
  const read = Atomics.load(words, READ);
  let written = Atomics.load(words, WRITTEN);
  while (written === read) {
    Atomics.wait(words, WRITTEN, written);
    written = Atomics.load(words, WRITTEN);
  }
  for (let at = read; at < written; at += 1) into.push(items[at % CAPACITY]);
  Atomics.store(words, READ, written);
  Atomics.notify(words, READ, 1);
}

export default function agent({ buffers, agent: self }) {
  const words = new Int32Array(buffers[0]);
  const items = new Int32Array(buffers[1]);
  if (self === 0) {
    for (let item = 1; item <= ITEMS; item += 1) push(words, items, 10 * item);
    return;
  }
  const pulled = [];
  while (pulled.length < ITEMS) pull(words, items, pulled);
  if (pulled.some((item, at) => item !== 10 * (at + 1))) throw new Error(`it pulled ${pulled}`);
}
