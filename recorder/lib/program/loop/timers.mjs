// Timers and immediates of a thread whose time is the run's: node's own, over lower functions of the run. So those that
// node itself starts, as for sockets, go by the run's time, too. Nothing runs by itself: the loop of the thread asks
// what is due, and runs one callback after the other.

import process from "node:process";
import { replaceNeeded } from "../../agent/ordinary/patch.mjs";
import { apply, weakGet, weakSet } from "../../primordials.mjs";
import { IMMEDIATES, REFED_IMMEDIATES, THREW, nodeTimers, putBelowTimers, realTimers } from "../node/internals.mjs";
import { turns } from "../real/real-loop.mjs";

/** @typedef {any} TimerObject a Timeout or an Immediate */
/** @typedef {{ text: string, readonly where: string | undefined }} Described it, in words, and where it was made */
/** @typedef {import("../../agent/frames.mjs").PlaceFinder} PlaceFinder */

const { getTimerCallbacks, immediateQueue, kRefed, knownTimersById, timerListMap, timerListQueue } = nodeTimers;
const { immediateInfo, timeoutInfo } = realTimers;

/** Is thrown where node would run ticks between two callbacks: the loop goes on there. */
const BETWEEN = new Error("one callback has run");

/** @returns {never} */
const stop = () => {
  throw BETWEEN;
};

export class Timers {
  /** Node's functions that run callbacks; one callback each time. */
  #process = getTimerCallbacks(stop);
  /** @type {WeakMap<TimerObject, PlaceFinder>} where each was made */
  #made = new WeakMap();
  /** @type {TimerObject[]} immediates of the round that has begun, and those of the next one */
  #round = [];
  /** @type {TimerObject[]} */
  #next = [];
  /** @type {unknown[]} signals that have a time. Node would forget the timers of those that are garbage */
  #signals = [];
  /** The time of the pass: timers that are started in it aren't due before all others that are due have run. */
  #pass = 0;
  #now;

  /**
   * One for each thread: node's timers are those of the run from now on.
   * @param {object} given
   * @param {() => number} given.now the run's clock in milliseconds
   * @param {(called: Function) => PlaceFinder} [given.here] where the code is that makes a timer; `called` makes it
   */
  constructor({ now, here = () => () => undefined }) {
    this.#now = () => Math.floor(now());
    putBelowTimers(this.#now, (item) => void weakSet(this.#made, item, here(classOf(item))));
    this.#keepSignals();
    keepCount();
    this.clear();
  }

  // ---- what the loop asks

  /** @returns {number} when the first timer is due, on the run's clock; Infinity if there is none */
  get deadline() {
    const first = timerListQueue.peek();
    if (first === undefined) return Infinity;
    if (dueOf(first) === first.expiry) return first.expiry;
    // Node looks at a list whose first timer was cleared when that one would have been due.
    return lists().reduce((earliest, list) => Math.min(earliest, dueOf(list)), Infinity);
  }

  /** @returns {(string | undefined)[]} where each timer was made */
  places() {
    return allTimers().map((timer) => this.#described(timer).where);
  }

  /** @returns {number} how many immediates are ready */
  get immediates() {
    return immediateInfo[IMMEDIATES] - turns();
  }

  /** @returns {number} how many of them belong to the round that has begun: node runs no timer between them */
  get inRound() {
    return this.#round.reduce((sum, immediate) => sum + (immediate._destroyed ? 0 : 1), 0);
  }

  /** @returns {boolean} whether there are immediates of the next round, and no timer or immediate keeps the thread */
  get areLeft() {
    return this.immediates > 0 && this.inRound === 0 && !this.alive;
  }

  /** @returns {boolean} whether a timer or an immediate keeps the thread alive */
  get alive() {
    return timeoutInfo[0] > 0 || immediateInfo[REFED_IMMEDIATES] > turns();
  }

  /** @returns {Described[]} the timers, by deadline, and the immediates that keep the thread alive */
  liveHandles() {
    this.#gather();
    const isRefed = (/** @type {TimerObject} */ item) => item[kRefed];
    const waiting = allTimers().filter(isRefed);
    waiting.sort((one, other) => timeOf(one) - timeOf(other));
    const ready = this.#round.concat(this.#next).filter(isRefed);
    return waiting.concat(ready).map((item) => this.#described(item));
  }

  /** @returns {Described | undefined} the timer that `runTimer` would run now */
  nextTimer() {
    const timer = this.#due();
    return timer && this.#described(timer);
  }

  /** @returns {Described | undefined} the immediate that `runImmediate` would run now */
  nextImmediate() {
    this.#gather();
    const immediate = firstOf(this.#round) ?? firstOf(this.#next);
    return immediate && this.#described(immediate);
  }

  /**
   * Runs the callback of the first timer that is due. What it throws is thrown here; contexts of async_hooks are open
   * then.
   * @returns {boolean} whether there was one
   */
  runTimer() {
    if (this.#due() === undefined) return false;
    this.#turn();
    return true;
  }

  /**
   * Runs the callback of the first immediate. One that is made meanwhile belongs to the next round. What it throws is
   * thrown here; contexts of async_hooks are open then.
   * @returns {boolean} whether there was one
   */
  runImmediate() {
    this.#gather();
    if (firstOf(this.#round) === undefined) {
      this.#round = this.#next;
      this.#next = [];
    }
    const immediate = firstOf(this.#round);
    if (immediate === undefined) return false;
    this.#round.shift();
    immediateQueue.append(immediate);
    try {
      apply(this.#process.processImmediate, process, []);
    } finally {
      immediateInfo[THREW] = 0;
    }
    return true;
  }

  /** Forgets all, for the next run. */
  clear() {
    for (const table of [timerListMap, knownTimersById]) for (const name of Object.keys(table)) delete table[name];
    while (timerListQueue.peek() !== undefined) timerListQueue.shift();
    immediateQueue.head = null;
    immediateQueue.tail = null;
    immediateInfo[IMMEDIATES] = turns();
    immediateInfo[REFED_IMMEDIATES] = turns();
    immediateInfo[THREW] = 0;
    timeoutInfo[0] = 0;
    // What has thrown may have left immediates in there.
    this.#process = getTimerCallbacks(stop);
    this.#round = [];
    this.#next = [];
    this.#signals = [];
    this.#pass = 0;
  }

  #keepSignals() {
    replaceNeeded(AbortSignal, "timeout", (engine) => (/** @type {unknown[]} */ ...given) => {
      const signal = apply(engine, AbortSignal, given);
      this.#signals.push(signal);
      return signal;
    });
  }

  /** Lets node's code go over its timers until one has run, or one that can't run is out of the way. */
  #turn() {
    try {
      apply(this.#process.processTimers, process, [this.#pass]);
    } catch (thrown) {
      if (thrown !== BETWEEN) throw thrown;
    }
  }

  /** @returns {TimerObject | undefined} the timer that node runs next, if it is due */
  #due() {
    const due = this.#dueInPass();
    if (due !== undefined) return due;
    this.#pass = this.#now();
    return this.#dueInPass();
  }

  #dueInPass() {
    for (;;) {
      const list = timerListQueue.peek();
      if (list === undefined || list.expiry > this.#pass) return undefined;
      const timer = list._idlePrev;
      if (timer !== list && timeOf(timer) <= this.#pass && timer._onTimeout) return timer;
      this.#turn();
    }
  }

  /** Takes the immediates that were made. So node's queue has one alone when it runs. */
  #gather() {
    for (let item = immediateQueue.head; item !== null;) {
      const next = item._idleNext;
      item._idlePrev = null;
      item._idleNext = null;
      this.#next.push(item);
      item = next;
    }
    immediateQueue.head = null;
    immediateQueue.tail = null;
  }

  /** @param {TimerObject} item @returns {Described} */
  #described(item) {
    const where = weakGet(this.#made, item);
    return {
      text: textOf(item),
      get where() {
        return where?.();
      },
    };
  }
}

/** Node 20 counts each object that is cleared as an immediate. One that is none isn't counted here. */
function keepCount() {
  replaceNeeded(immediateQueue, "remove", (engine) => (/** @type {TimerObject} */ item) => {
    if (!(item instanceof nodeTimers.Immediate)) immediateInfo[IMMEDIATES] += 1;
    return apply(engine, immediateQueue, [item]);
  });
}

/** @returns {any[]} node's lists of timers, one for each number of milliseconds */
const lists = () => Object.values(timerListMap);

/** @returns {TimerObject[]} */
const allTimers = () => lists().flatMap((list) => itemsOf(list));

/** @param {TimerObject} item @returns {Function} node's class of it */
const classOf = (item) => (item instanceof nodeTimers.Immediate ? nodeTimers.Immediate : nodeTimers.Timeout);

/** @param {TimerObject} item @returns {string} it in words */
function textOf(item) {
  if (classOf(item) === nodeTimers.Immediate) return "an immediate";
  return `${item._repeat === null ? "a timer" : "an interval"} of ${item._idleTimeout} ms`;
}

/** @param {TimerObject} timer @returns {number} when it is due */
const timeOf = (timer) => timer._idleStart + Math.trunc(timer._idleTimeout);

/** @param {any} list of node's @returns {number} when its first timer is due; Infinity if it has none */
const dueOf = (list) => (list._idlePrev === list ? Infinity : list._idlePrev._idleStart + list.msecs);

/** @param {any} list of node's @returns {TimerObject[]} its timers, the oldest first */
function itemsOf(list) {
  const items = [];
  for (let item = list._idlePrev; item !== list; item = item._idlePrev) items.push(item);
  return items;
}

/** @param {TimerObject[]} immediates @returns {TimerObject | undefined} the first that wasn't cleared */
function firstOf(immediates) {
  while (immediates.length > 0 && immediates[0]._destroyed) immediates.shift();
  return immediates[0];
}
