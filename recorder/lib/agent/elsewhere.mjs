// Calls of Atomics on memory that isn't recorded: the engine makes them. Code sleeps by a wait there that has a
// timeout, if nobody else uses that memory: it takes only the run's time. All else is noted.

import { apply, create } from "../primordials.mjs";

const { isNaN } = Number;
const { toPrimitive } = Symbol;

/** @typedef {Record<string, any>} Functions an Atomics: its functions by their names */

/**
 * @typedef {object} Elsewhere how these calls are made
 * @property {() => boolean} isRecording whether the agent's part in a run goes on
 * @property {boolean} simulatesTime whether a run has a time of its own
 * @property {(milliseconds: number) => void} sleep lets the run's time pass in a wait that nobody can end
 * @property {import("./unseen.mjs").Unseen} unseen where their use is noted
 * @property {() => never} endUnseen ends the run for what was noted
 * @property {(given: any[]) => number} [notify] wakes waits in which nobody sleeps; without, there are none
 */

/** @param {number} timeout @returns {boolean} whether a wait with it never ends by itself */
const isEndless = (timeout) => isNaN(timeout) || timeout === Infinity;

/**
 * Counts a call.
 * @param {Elsewhere} how
 * @param {object} buffer
 */
function count({ unseen, endUnseen }, buffer) {
  if (unseen.use(buffer, "calls")) endUnseen();
}

/**
 * Whether a wait is a sleep: it ends by itself, and nothing else is done with the memory.
 * @param {Elsewhere} how
 * @param {object} buffer
 * @param {number} timeout
 */
function isSleep({ unseen }, buffer, timeout) {
  if (isEndless(timeout) || unseen.isUsed(buffer)) return false;
  return unseen.isAllowed || unseen.lasting.length === 0;
}

/**
 * For how long the engine waits. If the run's time goes on instead, or the run is ended, it only compares.
 * @param {Elsewhere} how
 * @param {object} buffer
 * @param {number} timeout
 */
function engineTime(how, buffer, timeout) {
  if (how.unseen.isAllowed && isEndless(timeout)) return timeout;
  return how.simulatesTime || !isSleep(how, buffer, timeout) ? 0 : timeout;
}

/**
 * A wait. Its timeout is converted once, by the engine, after the index and the value.
 * @param {Functions} engine
 * @param {Elsewhere} how
 * @param {any[]} given
 * @param {object} buffer
 */
function wait(engine, how, given, buffer) {
  const { unseen, simulatesTime, sleep, endUnseen } = how;
  const timeout = given[3];
  let milliseconds = NaN;
  const converted = create(null);
  converted[toPrimitive] = () => {
    milliseconds = +timeout;
    return engineTime(how, buffer, milliseconds);
  };
  given[3] = converted;
  const answer = apply(engine.wait, engine, given);
  const sleeps = isSleep(how, buffer, milliseconds);
  if (!sleeps) count(how, buffer);
  if (answer !== "timed-out") return answer;
  if (!sleeps && !unseen.isAllowed) {
    unseen.wait(buffer);
    endUnseen();
  }
  if (simulatesTime) sleep(milliseconds);
  return answer;
}

/**
 * Makes a call.
 * @param {Functions} engine
 * @param {Elsewhere} how
 * @param {string} name
 * @param {any[]} given
 * @param {unknown} buffer on which it is made; undefined if it is made on no array of integers
 */
export function callElsewhere(engine, how, name, given, buffer) {
  if (!how.isRecording() || !how.unseen.isProgramMemory(buffer)) return apply(engine[name], engine, given);
  if (name === "wait") return wait(engine, how, given, buffer);
  if (name === "notify" && how.notify !== undefined) return how.notify(given);
  count(how, buffer);
  return apply(engine[name], engine, given);
}
