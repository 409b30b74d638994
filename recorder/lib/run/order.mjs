// Which failing run is the first one, that is reported, kept and shortened.

/** @typedef {{ seed: number, onlyIf?: string }} FailingRun */

/**
 * Whether a failing run comes before another. One that fails only after the early end of a timed wait comes behind all
 * others: it needs a time to pass that hardly ever passes. Else the lower seed comes first.
 * @param {FailingRun} one
 * @param {FailingRun} other
 * @returns {boolean}
 */
export function comesBefore(one, other) {
  const isEarly = one.onlyIf !== undefined;
  if (isEarly !== (other.onlyIf !== undefined)) return !isEarly;
  return one.seed < other.seed;
}

/** @param {{ fails: boolean, onlyIf?: string }} outcome @returns {boolean} whether no higher seed can come before it */
export const isFirstOfAll = ({ fails, onlyIf }) => fails && onlyIf === undefined;

/** Notices the runs of ascending seeds that may be the first failing one. */
export class FirstFailing {
  #hasFailed = false;
  #hasFirst = false;

  /**
   * @param {{ fails: boolean, onlyIf?: string }} outcome of the next run
   * @returns {boolean} whether it fails, and none before comes before it
   */
  takes(outcome) {
    if (!outcome.fails || this.#hasFirst) return false;
    const isFirst = isFirstOfAll(outcome) || !this.#hasFailed;
    this.#hasFailed = true;
    this.#hasFirst = isFirstOfAll(outcome);
    return isFirst;
  }
}
