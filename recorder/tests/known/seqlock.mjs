// A race by design: the numbers are read while they may be written, and read again where the sequence has gone on.
// What is returned is whole, but by ECMA-262 the reads race.

export const setup = { agents: 2, buffers: [4, 16] };

class SequenceLock {
  constructor(words, pair) {
    this.words = words;
    this.pair = pair;
  }

  write(number) {
    Atomics.add(this.words, 0, 1);
    this.pair.fill(number);
    Atomics.add(this.words, 0, 1);
  }

  read() {
    for (;;) {
      const before = Atomics.load(this.words, 0);
      if (before % 2 === 1) continue;
      const copy = this.pair.slice();
      if (Atomics.load(this.words, 0) === before) return copy;
    }
  }
}

export default function agent({ buffers, agent }) {
  const lock = new SequenceLock(new Int32Array(buffers[0]), new Float64Array(buffers[1]));
  if (agent === 0) {
    lock.write(0.5);
  } else {
    const [one, other] = lock.read();
    if (one !== other) throw new Error(`read ${one} and ${other}`);
  }
}

export const known = { endings: ["finished", "race"], races: [["pair\\.fill\\(number\\)", "pair\\.slice\\(\\)"]] };
