// How long something is waited for that may never come. The limit is meant for code that goes on without end, and not
// for a machine that is busy. So the wait is made in steps, and a step counts no longer than it was to last: time in
// which this process gets no processor hardly counts.

/** A step's milliseconds at most. */
const MOST_MILLISECONDS = 100;

/** So many steps a wait has at least. */
const FEWEST = 4;

export class Patience {
  #counted = 0;
  #since = performance.now();

  /** @param {number} seconds the limit */
  constructor(seconds) {
    this.limit = seconds * 1_000;
    /** How many milliseconds a step is to last. */
    this.step = Math.min(MOST_MILLISECONDS, this.limit / FEWEST);
  }

  /** Counts a step that is over, or a part of one. @returns {boolean} whether the limit is reached */
  isOver() {
    const now = performance.now();
    this.#counted += Math.min(now - this.#since, this.step);
    this.#since = now;
    return this.#counted >= this.limit;
  }

  /** Begins to wait anew. */
  renew() {
    this.#counted = 0;
    this.#since = performance.now();
  }
}
