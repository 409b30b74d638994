// Right: a seqlock of two writers and two readers. Its sequence is odd while an agent writes, and readers look twice.

export const setup = { agents: 4, buffers: [12], names: { SEQUENCE: 0, LOW: 1, HIGH: 2 } };

const SEQUENCE = 0;
const LOW = 1;
const HIGH = 2;
const next = (sequence) => sequence + 1;

function write(words, number) {
  for (;;) {
    const before = Atomics.load(words, SEQUENCE);
    if (before % 2 !== 0) continue;
    if (Atomics.compareExchange(words, SEQUENCE, before, before + 1) !== before) continue;
    const low = Atomics.load(words, LOW);
    Atomics.store(words, LOW, low + number);
    Atomics.store(words, HIGH, low + number);
    Atomics.store(words, SEQUENCE, next(before + 1));
    return;
  }
}

function read(words) {
  for (;;) {
    const before = Atomics.load(words, SEQUENCE);
    if (before % 2 !== 0) continue;
    const low = Atomics.load(words, LOW);
    const high = Atomics.load(words, HIGH);
    if (Atomics.load(words, SEQUENCE) === before) return [low, high];
  }
}

export default function agent({ buffers, agent: self }) {
  const words = new Int32Array(buffers[0]);
  for (let time = 0; time < 3; time += 1) {
    if (self < 2) {
      write(words, 10 ** self);
      continue;
    }
    const [low, high] = read(words);
    if (low !== high) throw new Error(`it reads the halves ${low} and ${high}`);
  }
}

export const check = ([buffer]) => new Int32Array(buffer)[HIGH] === 33;
