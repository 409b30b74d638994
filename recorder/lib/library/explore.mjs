// Many runs of the library, one for each of some seeds, handed out as they are asked for.

import { Job } from "../seeds/job.mjs";
import { Runs, outcomesOf } from "../seeds/runs.mjs";
import { BATCH } from "../seeds/seed-queue.mjs";
import { chosenProgram } from "../simulator/chosen.mjs";
import { folderOfCaller } from "./caller.cjs";
import { exploreOptions } from "./library-options.mjs";

/** @typedef {import("../simulator/native.mjs").NoSabsim} NoSabsim */
/** @typedef {import("../options/refused.mjs").Refused} Refused */
/** @typedef {import("./record-runs.mjs").RecordedOutcome} RecordedOutcome */
/** @typedef {import("./library-options.mjs").ExploreOptions} ExploreOptions */

/**
 * Runs the agents under the schedules of many seeds. The outcomes come in the order of the seeds. Nothing is started
 * before the first one is asked for, and when no more is asked for, all that was started is ended. A relative path of
 * the module is taken from the file whose code calls this function.
 * @param {ExploreOptions} options
 * @returns {AsyncGenerator<RecordedOutcome, void, void>} it fails with a Difference if the simulator says something
 * else, and with LostJob if the process of a job has ended
 * @throws {Refused | NoSabsim} for options that can't be, and if the native program is chosen and isn't there
 */
export function explore(options) {
  return outcomesOf(runsOf(options, () => folderOfCaller(explore)));
}

/** @param {{ jobs: number }} options @returns {Job | undefined} one in this process, if it is the only one */
export const jobHere = ({ jobs }) => (jobs === 1 ? new Job() : undefined);

/**
 * The runs of some options, for a caller whose folder is known otherwise.
 * @param {ExploreOptions} options
 * @param {() => string | undefined} callersFolder from which a relative path is taken, if it is known
 * @returns {Runs}
 */
export function runsOf(options, callersFolder) {
  const { signal, seeds, sabsim, ...rest } = exploreOptions(options, callersFolder);
  const checking = sabsim !== false && rest.checkEvery > 0 ? { sabsim: chosenProgram(sabsim) } : { checkEvery: 0 };
  // Each job makes a batch while the one before is taken.
  const ahead = rest.jobs * BATCH;
  return new Runs({ ...rest, ...seeds, ...checking, ahead }, { signal, job: jobHere(rest) });
}
