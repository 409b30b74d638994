// Right: the word counts the readers, or is -1 while a writer is inside. Both numbers are always the same.

export const setup = { agents: 3, buffers: [4, 16] };

const WRITER = -1;

class ReadersWriterLock {
  constructor(words) {
    this.words = words;
  }

  lock() {
    for (;;) {
      const state = Atomics.compareExchange(this.words, 0, 0, WRITER);
      if (state === 0) return;
      Atomics.wait(this.words, 0, state);
    }
  }

  unlock() {
    Atomics.store(this.words, 0, 0);
    Atomics.notify(this.words, 0);
  }

  lockShared() {
    for (;;) {
      const state = Atomics.load(this.words, 0);
      if (state === WRITER) Atomics.wait(this.words, 0, WRITER);
      else if (Atomics.compareExchange(this.words, 0, state, state + 1) === state) return;
    }
  }

  unlockShared() {
    if (Atomics.sub(this.words, 0, 1) === 1) Atomics.notify(this.words, 0);
  }
}

export default function agent({ buffers, agent }) {
  const lock = new ReadersWriterLock(new Int32Array(buffers[0]));
  const pair = new Float64Array(buffers[1]);
  for (let time = 1; time <= 2; time += 1) {
    if (agent === 0) {
      lock.lock();
      pair[0] = time / 4;
      pair[1] = time / 4;
      lock.unlock();
    } else {
      lock.lockShared();
      if (pair[0] !== pair[1]) throw new Error(`the numbers are ${pair}`);
      lock.unlockShared();
    }
  }
}

export const known = { endings: ["finished"] };
