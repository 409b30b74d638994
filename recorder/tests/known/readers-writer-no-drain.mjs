// Wrong: the writer keeps new readers out, but doesn't wait until those inside are gone.

export const setup = { agents: 2, buffers: [8, 16] };

const WRITER = 0;
const READERS = 1;

class ReadersWriterLock {
  constructor(words) {
    this.words = words;
  }

  lock() {
    while (Atomics.compareExchange(this.words, WRITER, 0, 1) !== 0) Atomics.wait(this.words, WRITER, 1);
  }

  unlock() {
    Atomics.store(this.words, WRITER, 0);
    Atomics.notify(this.words, WRITER);
  }

  lockShared() {
    for (;;) {
      Atomics.add(this.words, READERS, 1);
      if (Atomics.load(this.words, WRITER) === 0) return;
      Atomics.sub(this.words, READERS, 1);
      Atomics.wait(this.words, WRITER, 1);
    }
  }

  unlockShared() {
    Atomics.sub(this.words, READERS, 1);
  }
}

export default function agent({ buffers, agent }) {
  const lock = new ReadersWriterLock(new Int32Array(buffers[0]));
  const pair = new Float64Array(buffers[1]);
  if (agent === 0) {
    lock.lock();
    pair.fill(0.5);
    lock.unlock();
  } else {
    lock.lockShared();
    if (pair[0] !== pair[1]) throw new Error(`the numbers are ${pair}`);
    lock.unlockShared();
  }
}

export const known = {
  endings: ["finished", "race"],
  races: [["pair\\.fill\\(0\\.5\\)", "pair\\[0\\] !== pair\\[1\\]"]],
};
