// Whether the recorder can run the agents' code by a schedule (`--replay`).

/** @typedef {import("./editing.mjs").Editing} Editing */

/**
 * Why the recorder can't run it.
 * @param {Pick<Editing, "now" | "isWhole">} editing
 * @returns {string | undefined} undefined: it can
 */
export function whyNotOnCode({ now: { report: { entries, agents } }, isWhole }) {
  if (!isWhole) return "some accesses aren't made whole, as the recorder makes them";
  const stuck = entries.find(({ what }) => what === "stuck");
  if (stuck !== undefined) return `agent ${stuck.agent} can't move at ${stuck.entry}; drop that step first`;
  const left = agents.find(({ of, returned, standing }) =>
    standing !== undefined && (standing.at === "ready" || of - returned > 1));
  return left && `agent ${left.agent} has calls that this schedule doesn't make`;
}
