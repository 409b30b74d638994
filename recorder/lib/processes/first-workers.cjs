// How many workers begin at once, besides the referee's, before it is known how many are needed. This is a CommonJS
// module, since such a one is loaded sooner.
"use strict";

/** For a module of agents: two for each of two agents, since their second ones take over after the pilots. */
const FIRST_AGENTS = 4;

/** For a program: its own thread, and two workers. */
const FIRST_THREADS = 3;

/**
 * Whether pilots are made, after which each agent has another worker. A single agent meets nobody.
 * @param {number} agents
 * @param {boolean} everywhere
 */
const learns = (agents, everywhere) => !everywhere && agents > 1;

/**
 * How many agents' workers begin before the module is loaded.
 * @param {{ agents?: number, everywhere?: boolean }} options which may say how many agents there are
 */
function firstWorkers({ agents, everywhere = false }) {
  if (agents === undefined) return FIRST_AGENTS;
  return Math.min(FIRST_AGENTS, learns(agents, everywhere) ? 2 * agents : agents);
}

module.exports = { FIRST_THREADS, firstWorkers, learns };
