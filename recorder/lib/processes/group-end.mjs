// How the process of a job is ended. It leads a group of processes: those that its agents or its checks have started
// end with it. It isn't asked to end by itself, since it would then wait for each thread that native code holds.

import { HERE } from "./platform.cjs";

/**
 * Ends a process, and all of its group where there are groups.
 * @param {number | undefined} id of the process that leads the group; undefined: it has never begun
 */
export function endGroup(id) {
  if (id === undefined) return;
  try {
    process.kill(HERE.hasGroups ? -id : id, "SIGKILL");
  } catch {
    // It has ended by itself.
  }
}

/**
 * Ends what is left of a group whose leader has ended. Without groups nothing is left that could be found: by then, the
 * system may have given the leader's number to another process.
 * @param {number | undefined} id of the process that led the group
 * @param {import("./platform.cjs").Platform} platform
 */
export function endRest(id, { hasGroups } = HERE) {
  if (hasGroups) endGroup(id);
}
