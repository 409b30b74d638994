// Runs of a job in this process, each checked by the simulator.

import { Job } from "../../lib/seeds/job.mjs";

/** @typedef {import("../../lib/seeds/job.mjs").CheckedOutcome} CheckedOutcome */

/**
 * @param {object} options
 * @param {number[]} seeds
 * @param {CheckedOutcome[]} [outcomes] to which those of the runs are added, also if a later run is refused
 * @returns {Promise<CheckedOutcome[]>} the same, in the order of the seeds
 */
export async function jobOutcomes(options, seeds, outcomes = []) {
  const job = new Job();
  try {
    await job.open(/** @type {any} */ ({ checks: true, checkEvery: 1, ...options }));
    const wanted = seeds.map((seed) => ({ seed, whole: true, isSilent: true }));
    await job.run(wanted, (outcome) => void outcomes.push(outcome));
    return outcomes;
  } finally {
    await job.close();
  }
}
