// Promises that an agent leaves behind. What comes after one is done when the agent has ended, so it isn't learned.

import { promiseHooks } from "node:v8";
import { getPromiseDetails } from "../../program/node/internals.mjs";

const REJECTED = 2;

export class LeftPromises {
  /** @type {Promise<unknown>[]} those that were settled while the agent ran */
  #settled = [];

  /**
   * @param {() => boolean} isRunning whether an agent runs now
   * @param {() => void} note is called when something is to come after a promise
   */
  constructor(isRunning, note) {
    promiseHooks.onInit((_promise, parent) => {
      if (parent !== undefined && isRunning()) note();
    });
    promiseHooks.onSettled((promise) => {
      if (isRunning()) this.#settled[this.#settled.length] = promise;
    });
  }

  /** An agent is about to run. */
  begin() {
    this.#settled = [];
  }

  /** @returns {boolean} whether a promise was rejected. Nobody handles that: nothing comes after it. */
  hasRejected() {
    for (let at = 0; at < this.#settled.length; at += 1) {
      if (getPromiseDetails(this.#settled[at])[0] === REJECTED) return true;
    }
    return false;
  }
}
