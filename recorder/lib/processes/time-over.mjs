// The time that a whole command may take.

/** What is said if there was no time for something. */
export const TIME_OVER = "its time was over";

/** That time is over. */
export class TimeOver extends Error {}

/** @param {number} seconds @returns {AbortSignal} aborted by TimeOver when they have passed */
export function overAfter(seconds) {
  const controller = new AbortController();
  setTimeout(() => controller.abort(new TimeOver(TIME_OVER)), 1_000 * seconds).unref();
  return controller.signal;
}
