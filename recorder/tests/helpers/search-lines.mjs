// What `sabsim search --format json` writes of a search's result.

/** @param {Record<string, any>} row @returns {string} with its members in the order of their names */
function line(row) {
  const sorted = Object.keys(row).sort().map((name) => [name, row[name]]);
  return `${JSON.stringify(Object.fromEntries(sorted))}\n`;
}

/** @param {import("../../lib/every/search/result.mjs").Result} result @returns {string} */
export function linesOf({ deadlock, failed, no_way_out: noWayOut, unknown, conflicts, final, ...whole }) {
  const { timeouts, limit, closed, states, acts, expanded, depth } = whole;
  const counts = { conflicts: conflicts.count, finals: final.count, final_states: final.states };
  return [
    line({ timeouts, limit, closed, states, acts, expanded, depth, ...counts }),
    ...(deadlock === null ? [] : [line({ kind: "deadlock", ...deadlock })]),
    ...failed.map((row) => line({ kind: "failed", ...row })),
    ...(noWayOut === null ? [] : [line({ kind: "no way out", ...noWayOut })]),
    ...unknown.map((row) => line({ kind: "unknown", ...row })),
    ...conflicts.listed.map((row) => line({ kind: "conflict", ...row })),
    ...final.listed.map((row) => line({ kind: "final", ...row })),
  ].join("");
}
