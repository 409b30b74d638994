// How a slow function is done at once, by its synchronous version. A task of the run has its result later.

import { AsyncResource } from "node:async_hooks";
import { replaceNeeded } from "../../agent/ordinary/patch.mjs";
import { apply, construct } from "../../primordials.mjs";
import { orderOf } from "./trips.mjs";

/**
 * @typedef {object} SyncVersionContext
 * @property {(name: string, act: () => void, place?: string, order?: Order) => void} later lets the thread's loop run a
 *   task; `place` is where the program has begun it, if its code doesn't run now, and `order` where its result may come
 * @property {() => string | undefined} [here] where the program's code is
 * @property {() => boolean} [isPlaying] whether the program runs; until then all is node's own
 */
/** @typedef {import("./trips.mjs").Order} Order */
/** @typedef {{ value?: any, problem?: any }} CallOutcome */
/** @typedef {(...given: any[]) => any} AnyFunction */

/** @param {() => any} act @returns {CallOutcome} */
export function outcomeOf(act) {
  try {
    return { value: act() };
  } catch (problem) {
    return { problem };
  }
}

/** What node's functions with callbacks throw at once: that an argument is wrong. */
const THROWN = /^ERR_(?:INVALID|OUT_OF_RANGE|MISSING)/;

/** @param {unknown} problem @returns {boolean} */
export const isThrown = (problem) => THROWN.test(/** @type {any} */ (problem)?.code ?? "");

/**
 * Puts a function in place of another one, with its name, length and further members.
 * @param {any} owner
 * @param {string} name
 * @param {Function} stand
 */
export const replaceCall = (owner, name, stand) => replaceNeeded(owner, name, () => stand);

/** @param {string} name of a function @returns {string} what the task does that has its result, in words */
const resultOf = (name) => `has the result of ${name}`;

/**
 * Lets a callback run later, in the surroundings (AsyncLocalStorage) of now.
 * @param {SyncVersionContext} given
 * @param {string} name
 * @param {Function} done
 * @param {unknown[]} values
 * @param {Order} [order]
 */
export function callLater({ later }, name, done, values, order = orderOf(name)) {
  const resource = construct(/** @type {any} */ (AsyncResource), ["FSREQCALLBACK"]);
  later(resultOf(name), () => resource.runInAsyncScope(done, undefined, ...values), undefined, order);
}

/**
 * A promise that is settled later.
 * @param {SyncVersionContext} given
 * @param {string} name
 * @param {() => any} act done now
 * @param {{ signal?: AbortSignal, order?: Order }} [how]
 * @returns {Promise<any>}
 */
export function promiseLater({ later }, name, act, how = {}) {
  const { signal, order = orderOf(name) } = how;
  const { value, problem } = outcomeOf(act);
  return new Promise((resolve, reject) => {
    later(resultOf(name), () => {
      if (signal?.aborted) reject(abortError(signal));
      else if (problem === undefined) resolve(value);
      else reject(problem);
    }, undefined, order);
  });
}

/** @param {any} signal */
function abortError(signal) {
  const error = new Error("The operation was aborted", /** @type {any} */ ({ cause: signal.reason }));
  error.name = "AbortError";
  return Object.assign(error, { code: "ABORT_ERR" });
}

/**
 * Replaces a function whose last argument is a callback `(error, value)`.
 * @param {SyncVersionContext} given
 * @param {any} owner
 * @param {string} name
 * @param {AnyFunction} sync its synchronous version
 * @param {object} [how]
 * @param {(problem: any) => boolean} [how.throws] which problems are thrown at once
 * @param {(outcome: CallOutcome, all: any[]) => unknown[]} [how.answer] what the callback gets
 */
export function putSyncVersion(given, owner, name, sync, how = {}) {
  const { throws = isThrown, answer = answerOf } = how;
  const real = owner[name];
  const { isPlaying = () => true } = given;
  replaceCall(owner, name, /** @this {any} */ function (/** @type {any[]} */ ...all) {
    const done = all.at(-1);
    // Node reports that there is no callback.
    if (!isPlaying() || typeof done !== "function") return apply(real, this, all);
    const outcome = outcomeOf(() => sync(...all.slice(0, -1)));
    // Node's own function throws it at once, in its own words.
    if (outcome.problem !== undefined && throws(outcome.problem)) return apply(real, this, all);
    callLater(given, name, done, answer(outcome, all));
    return undefined;
  });
}

/** @param {CallOutcome} outcome @returns {unknown[]} */
function answerOf({ value, problem }) {
  if (problem !== undefined) return [problem];
  return value === undefined ? [null] : [null, value];
}
