// When further jobs are worth what they cost, if nobody has said how many there are to be.

import { availableParallelism, cpus } from "node:os";
import { setTimeout as pause } from "node:timers/promises";

/** How long the runs go on before further jobs are taken. */
const FIRST_MILLISECONDS = 1_000;

/** For how long the runs are watched before each further job. */
const LOOK_MILLISECONDS = 200;

/** How much of a processor must be idle for a further job. */
const LEAST_IDLE = 0.5;

/** A job is worth it if the runs would go on for so many times as long as it takes to open one. */
const WORTH = 2;

/**
 * @typedef {{ jobs: number, made: number, left: number }} JobProgress how many jobs there are, runs made, seeds left
 */

/** @returns {number} for how many milliseconds processors were idle, all together */
const idleTime = () => cpus().reduce((sum, { times }) => sum + times.idle, 0);

/**
 * Whether another job is worth it.
 * @param {object} seen for a while
 * @param {number} seen.milliseconds how long that was
 * @param {number} seen.idle for how long processors were idle then, all together
 * @param {number} seen.made how many runs were made then
 * @param {number} left how many seeds are left
 * @param {number} opening how long it takes to open a job, in milliseconds
 */
export function isWorthIt({ milliseconds, idle, made }, left, opening) {
  return left > 0 && idle >= LEAST_IDLE * milliseconds && left * milliseconds > WORTH * opening * made;
}

/**
 * Yields when a further job is to be taken.
 * @param {Promise<unknown>} opened settled when the first one is open
 * @param {() => JobProgress} progress
 * @param {AbortSignal} signal aborted when no more runs are wanted
 * @returns {AsyncGenerator<void, void, void>} it fails when the signal is aborted
 */
export async function* moreJobs(opened, progress, signal) {
  const begun = performance.now();
  await opened;
  const opening = performance.now() - begun;
  const options = { ref: false, signal };
  await pause(Math.max(0, FIRST_MILLISECONDS - opening), undefined, options);
  for (let now = progress(); now.left > 0 && now.jobs < availableParallelism(); now = progress()) {
    const [idle, time] = [idleTime(), performance.now()];
    await pause(LOOK_MILLISECONDS, undefined, options);
    const { made, left } = progress();
    const seen = { milliseconds: performance.now() - time, idle: idleTime() - idle, made: made - now.made };
    if (isWorthIt(seen, left, opening)) yield;
  }
}
