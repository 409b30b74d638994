// A lock for whose turn each waits who has drawn a ticket. It is right if all tickets differ.

const NEXT = 0;
const SERVED = 1;

export class TicketLock {
  /**
   * @param {Int32Array} words two
   * @param {(words: Int32Array, at: number) => number} draw the ticket
   */
  constructor(words, draw) {
    this.words = words;
    this.draw = draw;
  }

  lock() {
    const ticket = this.draw(this.words, NEXT);
    for (;;) {
      const served = Atomics.load(this.words, SERVED);
      if (served === ticket) return;
      Atomics.wait(this.words, SERVED, served);
    }
  }

  unlock() {
    Atomics.add(this.words, SERVED, 1);
    Atomics.notify(this.words, SERVED);
  }
}
