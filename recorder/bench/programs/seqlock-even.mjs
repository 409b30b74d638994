// Wrong: the writer of a seqlock moves the sequence once, after both halves, so a reader may see halves of two writes.

export const setup = { agents: 2, buffers: [12] };

const SEQUENCE = 0;
const LOW = 1;
const HIGH = 2;

export default function agent({ buffers, agent: self }) {
  const words = new Int32Array(buffers[0]);
  for (let time = 1; time <= 3; time += 1) {
    if (self === 0) {
      Atomics.store(words, LOW, time);
      Atomics.store(words, HIGH, time);
      Atomics.add(words, SEQUENCE, 2);
      continue;
    }
    const before = Atomics.load(words, SEQUENCE);
    const low = Atomics.load(words, LOW);
    const high = Atomics.load(words, HIGH);
    if (Atomics.load(words, SEQUENCE) === before && low !== high) throw new Error(`halves ${low} and ${high}`);
  }
}
