// Wrong: a reader looks for a writer first and counts itself afterwards, so a writer may come in between.

export const setup = { agents: 3, buffers: [16] };

const WRITER = 0;
const READERS = 1;
const DATA = 2;
const MANY_LOOKS = 100;

function write(words) {
  if (Atomics.compareExchange(words, WRITER, 0, 1) !== 0) return;
  for (let look = 0; Atomics.load(words, READERS) > 0; look += 1) {
    if (look > MANY_LOOKS) break;
  }
  if (Atomics.load(words, READERS) === 0) {
    Atomics.store(words, DATA, 1);
    Atomics.store(words, DATA, 0);
  }
  Atomics.store(words, WRITER, 0);
}

function read(words) {
  if (Atomics.load(words, WRITER) !== 0) return;
  Atomics.add(words, READERS, 1);
  if (Atomics.load(words, DATA) !== 0) throw new Error("it reads while somebody writes");
  Atomics.sub(words, READERS, 1);
}

export default function agent({ buffers, agent: self }) {
  const words = new Int32Array(buffers[0]);
  for (let time = 0; time < 3; time += 1) {
    if (self === 0) write(words);
    else read(words);
  }
}
