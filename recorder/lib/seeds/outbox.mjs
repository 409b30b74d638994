// Messages of a job's process to the first one. A message takes as long as some of the checks. So outcomes that come
// soon after each other are sent together, such as when checks are behind the runs. They go as JSON text: the engine's
// own form of messages takes at least twice as long.

import timers from "node:timers";

/** @typedef {import("./job.mjs").CheckedOutcome} CheckedOutcome */
/** @typedef {import("./remote-job.mjs").Message} Message */

const { setImmediate: turnLater } = timers;

/** How many outcomes go in one message at most: the process may be ended before it is sent. */
export const MOST_OUTCOMES = 8;

/** After so long the next outcome is the last one of its message: some checks take long. */
export const LONG_MILLISECONDS = 10;

/** @param {CheckedOutcome} outcome @returns {boolean} whether it goes alone: it fails, or it may be long */
const goesAlone = ({ fails, script, trace }) => fails || script !== undefined || trace !== undefined;

export class Outbox {
  /** @type {string[]} the outcomes that weren't sent yet, as JSON texts */
  #passed = [];

  /** When the first of them was added. */
  #since = 0;

  /** @param {(message: Message) => void} send */
  constructor(send) {
    this.send = send;
  }

  /** @param {CheckedOutcome} outcome is sent with others, or as soon as this thread has nothing else to do */
  add(outcome) {
    if (goesAlone(outcome)) {
      this.put({ outcome });
      return;
    }
    const count = this.#passed.push(JSON.stringify(outcome));
    const now = performance.now();
    if (count === 1) {
      this.#since = now;
      turnLater(() => this.#sendPassed());
    }
    if (count === MOST_OUTCOMES || now - this.#since > LONG_MILLISECONDS) this.#sendPassed();
  }

  /** @param {Message} message is sent at once, behind all outcomes that were added before */
  put(message) {
    this.#sendPassed();
    this.send(message);
  }

  #sendPassed() {
    if (this.#passed.length === 0) return;
    const passed = `[${this.#passed.join(",")}]`;
    this.#passed = [];
    this.send({ passed });
  }
}
