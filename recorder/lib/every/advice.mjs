// What the author of a module can change, so that every schedule of it can be tried.

/** @typedef {import("./learning/learning-report.mjs").LearningReport} LearningReport */

/** What can be written in place of something that can't be compared, by words of the reason. */
const INSTEAD = Object.freeze(/** @type {[RegExp, string][]} */ ([
  [/generator|async/, "write a loop or a plain function in place of a generator or an async function: what one of "
    + "these has still to do can't be shown"],
  [/proxy/i, "leave out proxies: no moment after one was made can be compared"],
  [/promise/i, "keep no promise that isn't settled while an agent calls Atomics"],
  [/`super`/, "call a function in place of a method that uses `super`"],
  [/engine|may have more to do|callback/, "call Atomics from your own loops and functions, and not from a getter, a "
    + "callback or another function that the engine calls"],
  [/buffer|typed array|DataView|shared memory/, "keep buffers of a fixed length, and typed arrays without properties"],
  [/`try`|how far a loop/, "call Atomics in loops with a counter or over an array, and in no `finally`"],
  [/WeakMap|WeakSet/, "keep in a field or in a Map what a WeakMap or a WeakSet holds"],
]));

/** @param {string} why moments can't be compared @returns {string} what can be changed */
const insteadOf = (why) => INSTEAD.find(([words]) => words.test(why))?.[1]
  ?? `while an agent calls Atomics, keep numbers, texts, arrays, plain objects, Maps and Sets in place of this: ${why}`;

/** What can be written in place of a loop without end. */
export const LET_END = "write `while (again())` in place of a loop that never ends: a lost wake-up is a deadlock then";

const ENDLESS = /makes no call of Atomics/;
const OF_ENDLESS = "let the loop end, or call Atomics in each of its turns";
const FEWER = "fewer agents, rounds and different values make fewer states";
const LONGER = "give it more time (--within)";
const FEWER_DRAWS = "draw eight or more random bytes, as a UUID, at an agent's beginning and in no loop: each draw is "
  + "another value, so no two rounds are the same";

/** A line at which an agent can get so many results is worth a word. */
const MANY_ANSWERS = 8;

/**
 * @param {string | undefined} open why not every schedule was tried
 * @param {LearningReport | undefined} report
 * @returns {string[]} sentences
 */
export function adviceOf(open, report) {
  if (report === undefined) return open !== undefined && ENDLESS.test(open) ? [OF_ENDLESS] : [];
  const kinds = [...new Set(report.hidden.map(({ why }) => insteadOf(why)))];
  const hasDeadlock = report.findings.some(({ kind }) => kind === "deadlock");
  if (open === undefined) return report.neverEnds && !hasDeadlock ? [LET_END, ...kinds] : kinds;
  if (report.isClosed) return [LONGER];
  const { answers, line } = report.widest;
  const isWide = line !== undefined && answers >= MANY_ANSWERS;
  const narrower = isWide ? [`let ${line} get fewer different values`] : [];
  const draws = report.drawn.unique ? [FEWER_DRAWS] : [];
  return [...kinds, ...draws, ...narrower, FEWER, ...(report.bound === "time" ? [LONGER] : [])];
}
