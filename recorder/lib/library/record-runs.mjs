// `record` of the library: one run, in this process.

import { Job } from "../seeds/job.mjs";
import { Runs } from "../seeds/runs.mjs";
import { chosenProgram } from "../simulator/chosen.mjs";
import { folderOfCaller } from "./caller.cjs";
import { checkedOptions } from "./library-options.mjs";

/** @typedef {import("../check/check.mjs").Check} Check */
/**
 * @typedef {{ remembers?: import("../seeds/first-again.mjs").Remembering }} WithRemembering of the last of many runs
 */
/** @typedef {import("../run/outcome.mjs").Outcome & Check & WithShortening & WithRemembering} RecordedOutcome */
/** @typedef {import("./library-options.mjs").RecordOptions} RecordOptions */

/**
 * @typedef {object} WithShortening what a failing run that was to be shortened has besides
 * @property {import("../run/outcome.mjs").Outcome & Check} [original] the run as it was found by its seed, if the
 * outcome is that of a shorter one
 * @property {import("../shorter/shorten.mjs").Shortened} [shortened]
 */

/**
 * Runs the agents once, under the schedule of one seed. The simulator checks the run, unless the options say that it
 * isn't asked. A relative path of the module is taken from the file whose code calls this function.
 * @param {RecordOptions} options
 * @returns {Promise<RecordedOutcome>} with all members; that of the shortest run if it was to be shortened. It fails
 * with Refused for options that can't be; with a Difference if the simulator says something else; and with NoSabsim if
 * the native program is chosen and isn't there
 */
export async function record(options) {
  const { seed, sabsim: asked, shorten, ...rest } = checkedOptions(options, () => folderOfCaller(record));
  const sabsim = asked === false ? asked : chosenProgram(asked);
  const only = { first: seed, last: seed, checkEvery: 1, fresh: false, jobs: 1 };
  const runs = new Runs({ ...rest, ...only, sabsim }, { job: new Job() });
  try {
    const { value } = await runs.outcomes().next();
    const found = /** @type {RecordedOutcome} */ (value);
    if (!found.fails || !shorten) return found;
    const { shortest, shortened } = await runs.shorten(found);
    return shortest === undefined ? { ...found, shortened } : { ...shortest, original: found, shortened };
  } finally {
    await runs.close();
  }
}
