// The waits of Atomics.waitAsync on the blocks of a program. Nobody sleeps in one, so a thread may have several. They
// are in the same line as the agents that sleep: a notify takes the oldest of both. Only the thread that has the turn
// changes them.

const { Int32Array, SharedArrayBuffer } = globalThis;

const MOST_WAITERS = 1_024;

// How many waits there were in the run; how many were notified; the slot from which on all are free; and whether a
// notify came to the place of a lost wait.
const JOINED = 0;
const NOTIFIED = 1;
const END = 2;
const MISSED = 3;
const HEAD = 4;

// The words of a slot.
const EACH = 6;
const STATE = 0;
const AGENT = 1;
const BLOCK = 2;
const BYTE = 3;
const TICKET = 4;
const ORDER = 5;

// The word STATE. A wait is lost if its thread has ended.
const FREE = 0;
const WAITS = 1;
const WOKEN = 2;
const LOST = 3;

/** In place of a slot. */
export const NO_WAITER = -1;

export class AsyncWaiters {
  /** @returns {SharedArrayBuffer} */
  static memory() {
    return new SharedArrayBuffer((HEAD + MOST_WAITERS * EACH) * 4);
  }

  /** @param {SharedArrayBuffer} memory */
  constructor(memory) {
    this.words = new Int32Array(memory);
  }

  /** A run begins. */
  begin() {
    this.words.fill(0);
  }

  /** @returns {number} how many waits of the run have joined the line */
  get joined() {
    return this.words[JOINED];
  }

  /** @returns {boolean} whether a notify came to a place of a lost wait: in a script an agent would still wait there */
  get hasMissed() {
    return this.words[MISSED] === 1;
  }

  /** @returns {boolean} whether there is room for another wait */
  hasRoom() {
    return this.#free() < MOST_WAITERS;
  }

  /**
   * A wait joins the line. There must be room for it.
   * @param {number} agent whose it is
   * @param {number} block
   * @param {number} byte
   * @param {number} ticket
   * @returns {number} its slot
   */
  join(agent, block, byte, ticket) {
    const { words } = this;
    const slot = this.#free();
    words.set([WAITS, agent, block, byte, ticket, 0], HEAD + slot * EACH);
    if (slot === words[END]) words[END] += 1;
    words[JOINED] += 1;
    return slot;
  }

  /**
   * @param {number} block
   * @param {number} byte
   * @returns {number} the slot of the oldest wait at a place, or `NO_WAITER`
   */
  oldest(block, byte) {
    let oldest = NO_WAITER;
    for (let slot = 0; slot < this.words[END]; slot += 1) {
      if (this.#word(slot, BLOCK) !== block || this.#word(slot, BYTE) !== byte) continue;
      const state = this.#word(slot, STATE);
      if (state === LOST) this.words[MISSED] = 1;
      if (state === WAITS && (oldest < 0 || this.ticket(slot) < this.ticket(oldest))) oldest = slot;
    }
    return oldest;
  }

  /** @param {number} slot @returns {number} */
  ticket(slot) {
    return this.#word(slot, TICKET);
  }

  /** @param {number} slot of a wait that a notify takes off the line @returns {number} the agent whose it is */
  notify(slot) {
    this.words[HEAD + slot * EACH + STATE] = WOKEN;
    this.words[HEAD + slot * EACH + ORDER] = this.nextOrder();
    return this.#word(slot, AGENT);
  }

  /** @returns {number} a number that rises with each notify of a wait */
  nextOrder() {
    this.words[NOTIFIED] += 1;
    return this.words[NOTIFIED];
  }

  /** @param {number} slot @returns {number} which notify of the run has woken it, from 1 on; 0: it still waits */
  order(slot) {
    return this.#word(slot, ORDER);
  }

  /** @param {number} slot of a wait that is settled */
  leave(slot) {
    this.words[HEAD + slot * EACH + STATE] = FREE;
  }

  /** @param {number} agent that has ended: nobody notifies its waits */
  endOf(agent) {
    for (let slot = 0; slot < this.words[END]; slot += 1) {
      const isPending = this.#word(slot, AGENT) === agent && this.#word(slot, STATE) === WAITS;
      if (isPending) this.words[HEAD + slot * EACH + STATE] = LOST;
    }
  }

  /** @returns {number} the first free slot */
  #free() {
    let slot = 0;
    while (slot < this.words[END] && this.#word(slot, STATE) !== FREE) slot += 1;
    return slot;
  }

  /** @param {number} slot @param {number} word */
  #word(slot, word) {
    return this.words[HEAD + slot * EACH + word];
  }
}
