// Writes a script's report as `sabsim replay` does (docs/FORMATS.md), and counts whose answers its lines are.

import { reportOf } from "../../script/report.mjs";

/** @typedef {import("./replay.mjs").Outcome} Outcome */

/**
 * The report.
 * @param {import("./script.mjs").Script} script
 * @param {Outcome} outcome
 * @returns {string}
 */
export function reportText(script, { entries, blocks, returned }) {
  const progress = script.agents.map(({ calls }, agent) => ({ returned: returned[agent], calls: calls.length }));
  return reportOf(entries, blocks.map(hexadecimal), progress);
}

/** @param {Uint8Array} block */
const hexadecimal = (block) => Buffer.from(block.buffer, block.byteOffset, block.byteLength).toString("hex");

/**
 * Whose answers the lines of moves are, in one line.
 * @param {Outcome} outcome
 * @returns {string}
 */
export function summary({ entries }) {
  const own = entries.filter((entry) => !entry.isOfEngine);
  const counts = [
    [own.filter(({ text }) => /^(begin|return)/.test(text)).length, "begin, return"],
    [own.filter(({ text }) => text.startsWith("stuck")).length, "stuck done, not-waiting or endless"],
    [own.filter(({ text }) => text.startsWith("act")).length, "a wait of an agent that can't block"],
  ];
  const kinds = counts.filter(([count]) => count > 0).map(([count, what]) => `${count} (${what})`);
  const asked = `${entries.length - own.length} of ${entries.length} moves are the engine's answers`;
  return kinds.length === 0 ? asked : `${asked}; the script's own: ${kinds.join(", ")}`;
}
