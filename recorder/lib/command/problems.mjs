// What went wrong, as it is printed.

import { Difference } from "../check/difference.mjs";
import { NotAsLearned } from "../every/not-as-learned.mjs";
import { NotKept } from "../keeping/run-store.mjs";
import { Refused } from "../options/refused.mjs";
import { KeepsGlobals } from "../seeds/first-again.mjs";
import { LostJob } from "../seeds/remote-job.mjs";
import { NoLongerTheSame } from "../shorter/differing.mjs";
import { NoSabsim } from "../simulator/native.mjs";
import { NotPrinted } from "./print.mjs";

/** What can go wrong without a defect of the recorder: a sentence says all of it. */
const EXPECTED = [
  Refused, Difference, NoSabsim, LostJob, KeepsGlobals, NoLongerTheSame, NotAsLearned, NotKept, NotPrinted,
];

/** @param {unknown} problem @returns {boolean} whether its message says all of it */
export const isExpected = (problem) => EXPECTED.some((kind) => problem instanceof kind);

/** @param {unknown} problem @returns {string} a sentence; for a defect, all that is known */
export function messageOf(problem) {
  if (!(problem instanceof Error)) return String(problem);
  return isExpected(problem) ? problem.message : problem.stack ?? String(problem);
}
