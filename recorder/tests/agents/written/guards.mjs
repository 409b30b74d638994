// A lock with guards that take it in a field, listeners, and promises of guards.

export const setup = { agents: 2, buffers: [8] };

class Lock extends EventTarget {
  constructor(words) {
    super();
    this.words = words;
  }

  take(timeout = 10) {
    while (Atomics.compareExchange(this.words, 0, 0, 1) !== 0) Atomics.wait(this.words, 0, 1, timeout);
    return true;
  }

  release() {
    Atomics.store(this.words, 0, 0);
    Atomics.notify(this.words, 0, 1);
    this.dispatchEvent(new Event("release"));
  }

  /** @returns {Promise<number>} what the function has returned */
  run(f) {
    return new Promise((resolve, reject) => {
      const guard = new Guard(this);
      try {
        resolve(f());
      } catch (error) {
        reject(error);
      } finally {
        guard.close();
      }
    });
  }
}

class Base {
  #lock;

  constructor(lock) {
    this.#lock = lock;
  }

  get lock() {
    return this.#lock;
  }
}

class Guard extends Base {
  isHeld = this.lock.take();

  close() {
    if (this.isHeld) this.lock.release();
    this.isHeld = false;
  }
}

export default function agent({ buffers: [buffer] }) {
  const words = new Int32Array(buffer);
  const lock = new Lock(words);
  let releases = 0;
  lock.addEventListener("release", () => { releases += 1; });
  lock.run(() => words[1] += 1);
  lock.run(() => words[1] += 1);
  if (releases !== 2) throw new Error(`${releases} releases`);
}

export const check = ([buffer]) => new Int32Array(buffer)[1] === 4;
