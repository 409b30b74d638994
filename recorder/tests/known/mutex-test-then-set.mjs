// Wrong: the lock is tested, and set by another call. Two that both found it free are both inside.

export const setup = { agents: 2, buffers: [4, 4] };

class TestThenSet {
  constructor(words) {
    this.words = words;
  }

  lock() {
    while (Atomics.load(this.words, 0) !== 0) Atomics.wait(this.words, 0, 1);
    Atomics.store(this.words, 0, 1);
  }

  unlock() {
    Atomics.store(this.words, 0, 0);
    Atomics.notify(this.words, 0);
  }
}

export default function agent({ buffers }) {
  const mutex = new TestThenSet(new Int32Array(buffers[0]));
  const balance = new Float32Array(buffers[1]);
  mutex.lock();
  balance[0] += 1;
  mutex.unlock();
}

export const known = { endings: ["finished", "race"], races: [["balance\\[0\\] \\+= 1", "balance\\[0\\] \\+= 1"]] };
