// A condition of things under a mutex. Its word counts the notifies, and is read while the mutex is held, so that none
// is missed. It is right.

export class Condition {
  /**
   * @param {Int32Array} words
   * @param {number} at the position of its word
   */
  constructor(words, at) {
    this.words = words;
    this.at = at;
  }

  /** @param {import("./mutex.mjs").Mutex} mutex held by the caller, before and after */
  wait(mutex) {
    const seen = Atomics.load(this.words, this.at);
    mutex.unlock();
    Atomics.wait(this.words, this.at, seen);
    mutex.lock();
  }

  /** @param {number} [count] how many are woken at most */
  notify(count = Infinity) {
    Atomics.add(this.words, this.at, 1);
    Atomics.notify(this.words, this.at, count);
  }
}
