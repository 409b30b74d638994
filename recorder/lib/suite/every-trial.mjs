// A trial of every schedule of a module of agents: it fails if something is found, and if not every schedule could be
// tried, or there was no time for all that follows.

import { dataOf } from "../every/data.mjs";
import { EveryUse } from "../every/every-use.mjs";
import { everyText } from "../every/every-text.mjs";
import { everyOptions } from "../library/every-schedule.mjs";
import { jobHere } from "../library/explore.mjs";
import { RunFailed } from "./run-failed.cjs";

/**
 * @param {import("../library/every-schedule.mjs").EveryOptions} options
 * @param {import("../library/caller.cjs").Caller} caller
 * @returns {Promise<string>} what is to be said if nothing was found; fails with RunFailed if something was
 */
export async function everyTried(options, caller) {
  const { signal, ...taken } = everyOptions(options, caller.folder);
  const data = dataOf(await new EveryUse(taken, { signal, job: jobHere(taken), isBrief: true }).run());
  const text = everyText(data).trimEnd();
  if (!data.isWhole || data.found.length > 0) throw new RunFailed(text, caller.place);
  return text;
}
