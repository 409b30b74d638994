// Calls of functions that the library was given. They fill the buffers before a run, or look at them after it.

import { foundBy, leftOpen } from "../agent/answer.mjs";

/** @typedef {import("./group.mjs").OfBuffers} OfBuffers */

/**
 * Calls one in this thread.
 * @param {OfBuffers | undefined} call
 * @param {readonly SharedArrayBuffer[]} buffers of the run
 * @param {Parameters<OfBuffers>[1]} about the agents
 * @returns {string} what went wrong in it, as "threw ..", or nothing
 */
export function problemIn(call, buffers, about) {
  try {
    const answer = call?.([...buffers], about);
    // It is reported that the result is a promise; nobody needs what becomes of it.
    Promise.resolve(answer).catch(() => {});
    return leftOpen(answer, "it") ?? foundBy(answer) ?? "";
  } catch (thrown) {
    if (thrown instanceof Error) return `threw ${thrown.stack ?? thrown}`;
    return `threw a value that is no Error: ${String(thrown)}`;
  }
}
