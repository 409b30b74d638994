// The thread of a group's referee. None of the agents' code is in it. So the next group of the process can have the
// thread, when a group ends whose referee has done its work.

import { begunThread, keepThread, keptThread } from "../processes/thread.mjs";
import { within } from "../processes/within.mjs";

/** @typedef {import("../processes/thread.mjs").Thread} Thread */
/** @typedef {{ seeds: import("./outcome.mjs").WantedRun[] } | { learns: true }} Work */

const REFEREE_MODULE = new URL("./referee.mjs", import.meta.url);

/** After its last outcome it has nothing more to do, and says so at once. */
const MOST_SECONDS = 1;

export class RefereeThread {
  /** Whether it has got what it needs to make the group's runs. */
  #isGiven = false;

  /** How many messages are still to come before it can be another group's, besides the one that it has finished. */
  #owes = 0;

  /** Settled when it has finished its work. */
  #finished = Promise.resolve();

  /** @type {() => void} */
  #finish = () => {};

  constructor() {
    const kept = keptThread(REFEREE_MODULE);
    /** @type {Thread} */
    this.thread = kept ?? begunThread(REFEREE_MODULE);
    if (kept === undefined) this.thread.give(REFEREE_MODULE);
  }

  /** @param {object} given what it needs to make the group's runs */
  give(given) {
    this.#isGiven = true;
    // It can't be another group's before it has done some work of this one.
    this.#owes = 1;
    this.thread.post(given);
  }

  /** @param {Work} work */
  begin(work) {
    this.#owes = "seeds" in work ? work.seeds.length : 1;
    this.#finished = new Promise((done) => {
      this.#finish = done;
    });
    this.thread.post(work);
  }

  /** @returns {Promise<import("../processes/thread.mjs").QueuedMessage>} the next message of its work */
  async next() {
    const item = await this.thread.next();
    const { outcome, finished } = item.message ?? {};
    if (outcome !== undefined) this.#owes -= 1;
    if (finished) {
      this.#owes = 0;
      this.#finish();
    }
    return item;
  }

  /** Ends it, unless another group may have it. */
  async end() {
    const { thread } = this;
    const isFree = this.#owes === 0 && await within(this.#finished.then(() => true), MOST_SECONDS);
    if (!isFree || thread.ended !== undefined) {
      await thread.stop();
      return;
    }
    if (this.#isGiven) thread.post({ rests: true });
    keepThread(REFEREE_MODULE, thread);
  }
}
