// Where everything of a run is in the board's words: 32-bit words in memory that all threads share.
//
// Only the thread that has the turn changes them, by plain writes. The atomic stores of GO, TURN and ENDED that come
// after them publish them. A thread that is woken by one of these, or reads it, sees all that was written before.

/** Words of the run. */
export const WORD = Object.freeze({
  TURN: 0,
  ENDED: 1,
  OVER: 2,
  ENDING: 3,
  LAST: 4,
  MOVES: 5,
  TICKETS: 6,
  TICKS: 7,
  STARTED: 8,
  EVENTS: 9,
  VIEWS: 10,
  ROOM: 11,
  TEXT_LENGTH: 12,
  RUN: 13,
  ORDER: 14,
  NOTES_SOURCES: 15,
  RANDOM: 16,
  STORES: 20,
  IS_THINNED: 21,
  HAS_TIMED: 22,
  EARLY: 23,
  STRATEGY: 24,
  IS_PILOT: 25,
  EARLY_OTHER: 26,
  EARLY_BEFORE: 27,
  IS_SILENT: 28,
  /**
   * Of a program: how many threads have joined its run, how many messages were sent, and how many threads are ready.
   */
  JOINED: 29,
  MESSAGES: 30,
  THREADS: 31,
  /** Of a program: what is changed in how its seed is drawn, and which agent is slow for how many draws more. */
  CHANGES: 32,
  SLOW: 33,
  SLOW_FOR: 34,
  /** Of a program for browsers: whether the run is well if nothing can move any more. */
  MAY_REST: 35,
  /**
   * Of a program: which threads wait for real answers, and which of them have looked in vain, a bit for each; how many
   * moves there were then; whether they looked for long; and whether the agent that was drawn is to look.
   */
  EXPECTS: 36,
  SILENT: 37,
  SILENT_SINCE: 38,
  LOOKS_LONG: 39,
  LOOKS: 40,
  /**
   * Of a program: which threads have a task and wait for real answers besides, and whose last moves were answers, a bit
   * for each; and how many answers came to a thread right after others, which is no further move.
   */
  OFFERS: 41,
  ANSWERED: 42,
  MORE_ANSWERS: 43,
  /** Which agent has met a limit, and whether it spins, as `End` keeps them. */
  MET: 44,
  /**
   * Of a program: which agents are held at a wait or a notify, and how many draws of one came in a row, as `Late` keeps
   * them.
   */
  LATE: 45,
  /** Of a program: how many callbacks of timers have run in a row, in vain so far. */
  VAIN: 46,
  /** In a run that notes lines of code: how many more ordinary accesses note theirs wherever they are. */
  LINES_LEFT: 47,
});

/** Words of each agent; each agent has a line of the processor's cache for itself. */
export const AGENT_WORD = Object.freeze({
  GO: 0,
  STATUS: 1,
  PHASE: 2,
  WHERE_BLOCK: 3,
  WHERE_BYTE: 4,
  TICKET: 5,
  CALLS: 6,
  RETURNED: 7,
  START: 8,
  ORDINARY: 9,
  ASKS_FROM: 10,
  ASKS_TO: 11,
  ASKS_HOW: 12,
  PRIVATE_CALLS: 13,
  PRIORITY: 14,
  SAME: 15,
});

const AGENTS = 48;
const AGENT_WORDS = 16;

/** @param {number} agent @param {number} word one of `AGENT_WORD` @returns {number} the position of an agent's word */
export const wordOf = (agent, word) => AGENTS + AGENT_WORDS * agent + word;

/** @param {number} agents @returns {number} how many words there are for so many agents */
export const wordsFor = (agents) => AGENTS + AGENT_WORDS * agents;

/** What an agent is at. */
export const PHASE = Object.freeze({ RUNS: 0, ASKS: 1, WAITS: 2, WAITS_TIMED: 3, WOKEN: 4, FINISHED: 5 });

/** What an agent's worker is at. A parked one sleeps for good, since its agent went on after its run's end. */
export const WORKER_STATUS = Object.freeze({ IDLE: 0, BUSY: 1, DEAD: 2, PARKED: 3 });

/** What an agent's worker is asked for: its part in a run, or the module's `init` or `check`. */
export const ORDER = Object.freeze({ PLAY: 0, INIT: 1, CHECK: 2 });

// The word TURN: nobody's, or an agent's while its own code runs (even) or while it is in a call of Atomics (odd).
export const NOBODY = -1;

/** @param {number} agent */
export const inCode = (agent) => 2 * agent;
/** @param {number} agent */
export const inCall = (agent) => 2 * agent + 1;
/** @param {number} turn */
export const agentOf = (turn) => turn >> 1;

/** In place of the block at which an agent waits: its event loop has nothing to do, or nobody can wake it. */
export const LOOP = -1;
export const NOWHERE = -2;
