// The moves of a script that have no effect, as the simulator reports them: those of agents whose calls have all
// returned, or that wait; and ends of a wait's time for agents that don't wait.

/** @typedef {{ at: number, why: string }} IdleMove its position in the schedule, and the report's word for why */

const STUCK = /^(\d+) \d+ \d+ stuck (\S+)$/gm;

/**
 * @param {import("../simulator/chosen.mjs").ChosenSimulator} simulator
 * @param {string} script
 * @returns {IdleMove[]} none if it is no script
 */
export function idleMoves(simulator, script) {
  const { status, output } = simulator.run({ job: "replay" }, script);
  if (status !== 0) return [];
  return [...output.matchAll(STUCK)].map(([, at, why]) => ({ at: Number(at), why }));
}
