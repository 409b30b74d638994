// Wrong: the mutex waits on a word that its unlock doesn't change. Where the owner unlocks and notifies between a
// failed exchange and the wait, nobody wakes the waiter. The data itself is safe.

export const setup = { agents: 3, buffers: [8, 1] };

class NaiveMutex {
  constructor(words) {
    this.words = words;
  }

  lock() {
    while (Atomics.exchange(this.words, 0, 1) !== 0) Atomics.wait(this.words, 1, 0);
  }

  unlock() {
    Atomics.store(this.words, 0, 0);
    Atomics.notify(this.words, 1, 1);
  }
}

export default function agent({ buffers }) {
  const mutex = new NaiveMutex(new Int32Array(buffers[0]));
  const counts = new Uint8Array(buffers[1]);
  for (let time = 0; time < 2; time += 1) {
    mutex.lock();
    counts[0] += 1;
    mutex.unlock();
  }
}

export const known = { endings: ["finished", "deadlock"] };
