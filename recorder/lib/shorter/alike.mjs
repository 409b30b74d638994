// Whether two runs fail in the same way.

/** @typedef {import("../run/outcome.mjs").Outcome} Outcome */
/** @typedef {import("../run/outcome.mjs").Aside} Aside */
/** @typedef {{ outcome: Outcome, aside: Aside }} RunAndAside */

// A number, with its sign and its fraction.
const NUMBERS = /-?\d+(\.\d+)?/g;

/**
 * What was found, whatever numbers it was found with: the first line, and the place in the code if a stack has one.
 * @param {string} detail
 */
function findingOf(detail) {
  const [first, ...rest] = detail.split("\n");
  const place = rest.find((line) => /^\s+at /.test(line)) ?? "";
  return `${first.replaceAll(NUMBERS, "0")}${place}`;
}

/** @param {Aside} aside @returns {string} which agents wait where */
const waitersOf = ({ waiting }) => waiting.map(({ agent, block, byte }) => `${agent} ${block} ${byte}`).sort().join();

/** @param {string[]} lines */
const pairOf = (lines) => lines.join(" and ");

/**
 * Whether a run fails as another one does: with the same ending. A deadlock must also have the same agents at the same
 * places, and a race the pair of lines that the other one reports first. Any other ending must have the same message up
 * to its numbers.
 * @param {RunAndAside} run
 * @param {RunAndAside} other
 * @returns {boolean}
 */
export function failsAlike(run, other) {
  const { ending, detail, races } = other.outcome;
  if (run.outcome.ending !== ending || run.aside.divergence !== undefined) return false;
  if (ending === "not linearizable" || ending === "lost wake-up") return true;
  if (ending === "deadlock") return waitersOf(run.aside) === waitersOf(other.aside);
  if (ending !== "race") return findingOf(run.outcome.detail) === findingOf(detail);
  return races.length > 0 && run.outcome.races.some(({ lines }) => pairOf(lines) === pairOf(races[0].lines));
}
