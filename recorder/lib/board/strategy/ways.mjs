// What `--strategy` can say: one of the strategies, or `mixed`, by which a run's seed says which it takes. And what
// `--timeouts` can say besides a number.

import { STRATEGIES } from "./strategies.mjs";

/** In place of a share of the draws: timed waits don't end by themselves. */
export const NEVER = "never";

/**
 * @typedef {object} Way how the agents of a run are drawn
 * @property {string} name of its strategy
 * @property {number} likelihood behind that name, if it has one
 * @property {boolean} everywhere whether a draw is made before each call, also where agents can't meet
 */

/** @type {(name: Way["name"], likelihood?: number, everywhere?: boolean) => Way} */
const way = (name, likelihood = 0, everywhere = false) => Object.freeze({ name, likelihood, everywhere });

const ORDER = way("partial-order");
const RARELY = way("switch", 0.1);
const NOW_AND_THEN = way("switch", 0.2);
const OFTEN = way("switch", 0.3);
const MOSTLY = way("switch", 0.85);
// It doesn't depend on what pilots have shown: it finds what they haven't seen, though later.
const EVERYWHERE = way("switch", 0.3, true);

/**
 * What mixed runs take in turn: a run takes the one at its seed modulo how many there are. How often each is in the
 * list comes from `recorder/bench`: for each of its programs there are some that find much.
 */
const MIXED = Object.freeze([
  ORDER, OFTEN, ORDER, MOSTLY, ORDER, NOW_AND_THEN, ORDER, RARELY,
  ORDER, OFTEN, ORDER, MOSTLY, ORDER, NOW_AND_THEN, ORDER, OFTEN,
  ORDER, MOSTLY, ORDER, NOW_AND_THEN, ORDER, RARELY, ORDER, OFTEN,
  NOW_AND_THEN, MOSTLY, OFTEN, NOW_AND_THEN, RARELY, MOSTLY, NOW_AND_THEN, EVERYWHERE,
]);

/** Those of pilots: whatever the runs are to do, pilots look at all that the agents may do. */
export const PILOT_WAYS = Object.freeze(MIXED.map(({ name, likelihood }) => way(name, likelihood, true)));

/** One in so many of a program's mixed runs draws before each call. */
const OF_PROGRAM = 8;

/** What names a strategy: P is a likelihood. */
export const STRATEGY_WORDS = Object.freeze(["mixed", ...Object.entries(STRATEGIES).map(([name, { hasLikelihood }]) =>
  hasLikelihood ? `${name}:P` : name)]);

/**
 * @param {string} strategy
 * @param {boolean} everywhere
 * @returns {readonly Way[]} what runs take in turn; none if no strategy is named so
 */
export function waysOf(strategy, everywhere) {
  if (strategy === "mixed") return everywhere ? PILOT_WAYS : MIXED;
  const [, name, likelihood] = /^([a-z-]+)(?::([0-9]+(?:\.[0-9]+)?))?$/.exec(strategy) ?? [];
  if (!Object.hasOwn(STRATEGIES, name ?? "")) return [];
  const isRight = STRATEGIES[name].hasLikelihood ? Number(likelihood) <= 1 : likelihood === undefined;
  return isRight ? [way(name, Number(likelihood ?? 0), everywhere)] : [];
}

/**
 * The same for a program. The run of seed 1 needs no pilots.
 * @param {string} strategy
 * @param {boolean} everywhere
 * @returns {readonly Way[]}
 */
export const programWaysOf = (strategy, everywhere) => waysOf(strategy, everywhere).map((one, at, all) =>
  all.length > 1 && at % OF_PROGRAM === 1 ? way(one.name, one.likelihood, true) : one);
