// A condition variable beside a lock, for any number of rounds: agents wait until the thing that they share is free.
// The variable has how many agents wait, which is kept under the lock, and how many of them are let go.

export const setup = { agents: 3, buffers: [16], names: { LOCK: 0, LET_GO: 1, WAITING: 2, TAKEN: 3 } };

class Monitor {
  constructor(words) {
    this.words = words;
  }

  lock() {
    while (Atomics.exchange(this.words, 0, 1) !== 0) Atomics.wait(this.words, 0, 1);
  }

  unlock() {
    Atomics.store(this.words, 0, 0);
    Atomics.notify(this.words, 0, 1);
  }

  wait() {
    const { words } = this;
    words[2] += 1;
    this.unlock();
    for (;;) {
      const letGo = Atomics.load(words, 1);
      if (letGo === 0) Atomics.wait(words, 1, 0);
      else if (Atomics.compareExchange(words, 1, letGo, letGo - 1) === letGo) break;
    }
    this.lock();
  }

  signal() {
    const { words } = this;
    if (words[2] === 0) return;
    words[2] -= 1;
    Atomics.add(words, 1, 1);
    Atomics.notify(words, 1, 1);
  }
}

export default function agent({ buffers, again }) {
  const words = new Int32Array(buffers[0]);
  const monitor = new Monitor(words);
  while (again()) {
    monitor.lock();
    while (words[3] === 1) monitor.wait();
    words[3] = 1;
    monitor.unlock();
    monitor.lock();
    words[3] = 0;
    monitor.signal();
    monitor.unlock();
  }
}
