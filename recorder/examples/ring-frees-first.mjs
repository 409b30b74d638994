// A ring of bytes, for one agent that pushes and one that pops. Its slots are ordinary data. The two counts are atomic:
// an agent that can't go on sleeps on the other's count.
//
// It is wrong: `pop` gives the slot free before it reads the byte in it, and the other agent may write it anew. A byte
// has to be read first, as in ring.mjs.

// Words: how many bytes were popped, and how many were pushed.
const HEAD = 0;
const TAIL = 1;

export class Ring {
  /**
   * @param {Int32Array} words two words of shared memory that nothing else uses, zero at first
   * @param {Uint8Array} slots shared memory that nothing else uses
   */
  constructor(words, slots) {
    this.words = words;
    this.slots = slots;
  }

  /**
   * Pushes a byte, and sleeps while the ring is full.
   * @param {number} byte
   */
  push(byte) {
    const { words, slots } = this;
    const tail = Atomics.load(words, TAIL);
    for (let head = Atomics.load(words, HEAD); tail - head === slots.length; head = Atomics.load(words, HEAD)) {
      Atomics.wait(words, HEAD, head);
    }
    slots[tail % slots.length] = byte;
    Atomics.store(words, TAIL, tail + 1);
    Atomics.notify(words, TAIL, 1);
  }

  /** Pops the oldest byte, and sleeps while the ring is empty. */
  pop() {
    const { words, slots } = this;
    const head = Atomics.load(words, HEAD);
    while (Atomics.load(words, TAIL) === head) Atomics.wait(words, TAIL, head);
    Atomics.store(words, HEAD, head + 1);
    Atomics.notify(words, HEAD, 1);
    return slots[head % slots.length];
  }
}
