// The tasks of a thread's loop besides messages, timers and immediates: results of what node does by other threads, and
// what the thread has to do itself. In half of the seeds they come in the order in which they were begun. In the other
// half the seed draws which result comes next.

import { Random } from "../../memory/random.mjs";

/** Each thread draws its results from a random row of its own, numbered from here. */
const RESULTS = 128;

/** Node's pool has so many threads: so many requests are under way at once. */
const POOL = 4;

/** @typedef {import("../sync/trips.mjs").Order} Order */

/**
 * @typedef {object} BegunTask
 * @property {string} text what it does, in words
 * @property {string | undefined} place where the program has begun it, if that is noted
 * @property {() => void} act
 * @property {Order} [order]
 * @property {number} number how many were begun before it
 * @property {number} left how many requests it still takes
 */

export class Tasks {
  /** @type {BegunTask[]} in the order of what begins next in the pool */
  #all = [];

  /** Whether they come in the order in which they were begun. */
  #areInOrder = true;

  #random = new Random(new Int32Array(4));

  /** How many were begun in the run. */
  #begun = 0;

  /** How many there are. */
  get count() {
    return this.#all.length;
  }

  /** Nothing of an earlier run is left. */
  clear() {
    this.#all = [];
    this.#begun = 0;
  }

  /**
   * A run begins.
   * @param {number} seed
   * @param {number} agent
   * @param {boolean} isPilot
   */
  begin(seed, agent, isPilot) {
    this.#random.seedApart(seed, RESULTS + agent);
    this.#areInOrder = isPilot || this.#random.below(2) === 0;
  }

  /** @param {Omit<BegunTask, "number" | "left">} task that is begun */
  push(task) {
    this.#all.push({ ...task, number: this.#begun, left: task.order?.trips ?? 0 });
    this.#begun += 1;
  }

  /** @returns {BegunTask} the one that comes next: it is taken away */
  take() {
    for (;;) {
      const at = this.#next();
      // A program may replace the iterators of arrays.
      const task = this.#all.splice(at, 1)[0];
      if (this.#areInOrder || task.left < 2) return task;
      // Its next request comes behind those that wait for a thread of the pool.
      task.left -= 1;
      this.#all.push(task);
    }
  }

  /** @returns {number} the position of one that may come next */
  #next() {
    const all = this.#all;
    if (this.#areInOrder || all.length === 1) return 0;
    const mayCome = this.#candidates();
    return mayCome[mayCome.length === 1 ? 0 : this.#random.below(mayCome.length)];
  }

  /** @returns {number[]} the positions of those that may come next */
  #candidates() {
    let ofPool = 0;
    let own = 0;
    return this.#all.flatMap((task, at) => {
      const { order } = task;
      if (this.#isHeld(task)) return [];
      if (order === undefined) own += 1;
      else if (order.trips > 0) ofPool += 1;
      const isUnderWay = order === undefined ? own === 1 : order.trips === 0 || ofPool <= POOL;
      return isUnderWay ? [at] : [];
    });
  }

  /** @param {BegunTask} task @returns {boolean} whether it comes behind another one that is there */
  #isHeld({ number, order }) {
    if (order?.isLast !== true) return false;
    return this.#all.some((other) => other.number < number && other.order?.of === order.of);
  }
}
