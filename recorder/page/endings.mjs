// How a run ended, as people read it. JSON has the short names.

const WORDS = new Map([["check", "check failed"], ["limit", "limit met"], ["blocked", "rightly blocked"]]);

/** Whether a run that ended as `failed` threw. If not, the recorder or the engine stopped it. */
const THREW = /^(?:agent \d+|init) threw /;

/**
 * @param {string} ending as JSON has it
 * @param {string} detail why the run ended so
 * @returns {boolean} whether something was thrown by an agent or by `init`
 */
export const hasThrown = (ending, detail) => ending === "failed" && THREW.test(detail);

/**
 * @param {string} ending as JSON has it
 * @param {string} detail why the run ended so
 * @returns {string} how it ended, in words
 */
export function endingText(ending, detail) {
  if (ending === "failed") return hasThrown(ending, detail) ? "threw" : "stopped";
  return WORDS.get(ending) ?? ending;
}

/**
 * How several runs ended that have one ending.
 * @param {string} ending as JSON has it
 * @param {{ failed: number, threw: number }} counts how many of all runs ended as `failed`, and how many of these threw
 * @returns {string}
 */
export function endingsText(ending, { failed, threw }) {
  if (ending !== "failed") return endingText(ending, "");
  if (threw === failed) return "threw";
  return threw === 0 ? "stopped" : "threw or stopped";
}
