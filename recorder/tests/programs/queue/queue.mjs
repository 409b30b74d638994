// A queue of one place between threads: a lock of one word, and words for "there is room" and "there is a piece".
const [LOCK, FULL, PIECE] = [0, 1, 2];

export class Queue {
  constructor(words, { wakes }) {
    this.words = words;
    this.wakes = wakes;
  }

  #lock() {
    while (Atomics.compareExchange(this.words, LOCK, 0, 1) !== 0) Atomics.wait(this.words, LOCK, 1);
  }

  #unlock() {
    Atomics.store(this.words, LOCK, 0);
    Atomics.notify(this.words, LOCK, 1);
  }

  #locked(is, deed) {
    for (;;) {
      this.#lock();
      if (this.words[FULL] === is) break;
      this.#unlock();
      Atomics.wait(this.words, FULL, 1 - is);
    }
    const answer = deed();
    Atomics.store(this.words, FULL, 1 - is);
    this.#unlock();
    Atomics.notify(this.words, FULL, this.wakes);
    return answer;
  }

  put(piece) {
    this.#locked(0, () => { this.words[PIECE] = piece; });
  }

  take() {
    return this.#locked(1, () => this.words[PIECE]);
  }
}
