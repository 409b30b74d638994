// The process of a job. It ends with the process that has started it, however that one ends.

import { onceMore, stopGrowth } from "../processes/garbage.mjs";
import { endGroup } from "../processes/group-end.mjs";
import { HERE } from "../processes/platform.cjs";
import { Job } from "./job.mjs";
import { Outbox } from "./outbox.mjs";
import { packed } from "./remote-job.mjs";

const job = new Job();

// It is forked, and so can send.
const outbox = new Outbox((message) => process.send?.(message));

/** @param {import("./job.mjs").CheckedOutcome} outcome */
function sendOutcome(outcome) {
  outbox.add(outcome);
  onceMore();
}

/** @param {import("./remote-job.mjs").JobRequest} request @returns {Promise<unknown>} */
async function answerTo(request) {
  if (request.open !== undefined) await job.open(request.open);
  // Its first workers have begun.
  stopGrowth();
  if (request.run !== undefined) await job.run(request.run, sendOutcome, (failing) => outbox.put({ failing }));
  return request.shorten && job.shorten(request.shorten, (tried) => outbox.put({ tried }));
}

// Without a group of its own it gets the signals of the console, too. The process that has started it ends it.
if (!HERE.hasGroups) process.on("SIGINT", () => {});
process.on("disconnect", () => endGroup(process.pid));
if (!process.connected) endGroup(process.pid);
process.on("message", async (request) => {
  try {
    outbox.put({ done: await answerTo(request) });
  } catch (error) {
    outbox.put({ failed: packed(error) });
  }
});
