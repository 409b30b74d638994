// The limits of a script, as docs/FORMATS.md of the project gives them, and the limits that a run has by default.

/** What a script can have at most. */
export const SCRIPT_LIMITS = Object.freeze({
  blocks: 4,
  bytes: 65_536,
  views: 64,
  agents: 16,
  calls: 1_000,
  moves: 100_000,
  text: 1_048_576,
});

/** How many bytes a file of automata can have at most. */
export const MOST_OF_AUTOMATA = 16_777_216;

/** For how many seconds an agent may make no call, if nothing else is asked for. */
export const DEFAULT_SECONDS = 10;

/** How many groups of workers may run side by side. */
export const MOST_JOBS = 64;
