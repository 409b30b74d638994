// What a class of the program needs of its thread. A thread gets it anew for each run that it has a part in.

/** @template Needed */
export class PartInRun {
  /** @type {Needed | undefined} undefined: the thread has no part in a run yet */
  #needed = undefined;

  /** @param {Needed} needed in the run that begins */
  begin(needed) {
    this.#needed = needed;
  }

  /** @returns {Needed} */
  get needed() {
    if (this.#needed === undefined) throw new Error("the thread has no part in a run yet");
    return this.#needed;
  }
}
