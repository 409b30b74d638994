// A signal that ends the recorder: what was found until then is reported first.

import { constants } from "node:os";
import { setImmediate as turn } from "node:timers/promises";
import { HERE } from "../processes/platform.cjs";

const SIGNALS = ["SIGINT", "SIGTERM"];

/** A shell adds this to a signal's number. */
const SHELLS_SIGNAL = 128;

/** The process was asked to end. */
export class Interrupted extends Error {
  /** @param {NodeJS.Signals} by */
  constructor(by) {
    super(`interrupted by ${by}`);
    this.by = by;
  }
}

export class Interruption {
  constructor() {
    this.controller = new AbortController();
    /** @param {NodeJS.Signals} signal */
    this.stop = (signal) => {
      // A second signal ends the process at once.
      this.#forget();
      this.controller.abort(new Interrupted(signal));
    };
    for (const signal of SIGNALS) process.on(signal, this.stop);
  }

  /** @returns {AbortSignal} */
  get signal() {
    return this.controller.signal;
  }

  /**
   * From now on signals do what they do by themselves.
   * @returns {Promise<void>} fails if one has come before
   */
  async end() {
    // One that came while nothing else was done is reported now.
    await turn();
    this.#forget();
    if (this.signal.reason instanceof Interrupted) throw this.signal.reason;
  }

  #forget() {
    for (const signal of SIGNALS) process.off(signal, this.stop);
  }
}

/**
 * Ends the process as a signal ends it. Windows has no signals: there the status is the one that shells report.
 * @param {NodeJS.Signals} signal that nothing listens to
 * @param {import("../processes/platform.cjs").Platform} platform
 * @returns {Promise<never>}
 */
export function endBy(signal, { hasSignals } = HERE) {
  if (!hasSignals) process.exit(SHELLS_SIGNAL + constants.signals[signal]);
  process.kill(process.pid, signal);
  // Until it arrives.
  return new Promise(() => {
    setInterval(() => {}, 1_000);
  });
}
