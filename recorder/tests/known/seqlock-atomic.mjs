// Right: as the other sequence lock, but each number is written and read by Atomics.

export const setup = { agents: 2, buffers: [12] };

const ONE = 1;
const OTHER = 2;

class SequenceLock {
  constructor(words) {
    this.words = words;
  }

  write(number) {
    Atomics.add(this.words, 0, 1);
    Atomics.store(this.words, ONE, number);
    Atomics.store(this.words, OTHER, number);
    Atomics.add(this.words, 0, 1);
  }

  read() {
    for (;;) {
      const before = Atomics.load(this.words, 0);
      const copy = [Atomics.load(this.words, ONE), Atomics.load(this.words, OTHER)];
      if (before % 2 === 0 && Atomics.load(this.words, 0) === before) return copy;
    }
  }
}

export default function agent({ buffers, agent }) {
  const lock = new SequenceLock(new Int32Array(buffers[0]));
  if (agent === 0) {
    lock.write(5);
    lock.write(7);
  } else {
    const [one, other] = lock.read();
    if (one !== other) throw new Error(`read ${one} and ${other}`);
  }
}

export const known = { endings: ["finished"] };
