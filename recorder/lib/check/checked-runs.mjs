// Runs that the module of the simulator has replayed and judged with success. The module's answer depends only on the
// bytes that it gets. So a run that is the same as one of them, byte for byte, isn't replayed once more.

/** @typedef {import("../run/outcome.mjs").One} One */

/** How many runs are remembered. */
export const MOST_CHECKED_RUNS = 256;

/** A run that is longer isn't remembered. */
const MOST_CHARACTERS = 16_384;

/** @param {Pick<One, "outcome" | "judgement">} run @returns {boolean} whether it may be remembered */
function isShort({ outcome: { script = "", report = "" }, judgement }) {
  return script.length + report.length + (judgement?.events.byteLength ?? 0) <= MOST_CHARACTERS;
}

/** @param {Int32Array} events @returns {string} a character for each of their bytes */
const charactersOf = ({ buffer, byteOffset, byteLength }) =>
  Buffer.from(buffer, byteOffset, byteLength).toString("latin1");

/**
 * All that the simulator is given of a run, and all that its answers are compared with.
 * @param {Pick<One, "outcome" | "judgement">} run
 * @returns {string}
 */
function allOf({ outcome: { script = "", report = "" }, judgement }) {
  // No text has a character 0.
  const texts = `${script}\0${report}\0`;
  if (judgement === undefined) return texts;
  const { racy, isInScript, events } = judgement;
  return `${texts}${racy}\0${isInScript}\0${charactersOf(events)}`;
}

export class CheckedRuns {
  /** @type {Set<string> | undefined} undefined: runs hardly repeat here */
  #passed = new Set();
  #repeated = 0;

  /**
   * Checks a run, except if it is the same as one that has passed.
   * @param {Pick<One, "outcome" | "judgement">} run
   * @param {() => void} check throws if the run doesn't pass
   */
  pass(run, check) {
    const passed = isShort(run) ? this.#passed : undefined;
    if (passed === undefined) {
      check();
      return;
    }
    const all = allOf(run);
    if (passed.has(all)) {
      this.#repeated += 1;
      return;
    }
    check();
    if (passed.size < MOST_CHECKED_RUNS) passed.add(all);
    if (passed.size === MOST_CHECKED_RUNS && this.#repeated < MOST_CHECKED_RUNS) this.#passed = undefined;
  }
}
