// The two kinds of runs: those of a module of agents, and those of a whole program. What differs between them in how
// runs are asked for, made and kept is a member here, so that no other code asks which kind it is. They are data alone,
// so that options can take them to other threads and processes.

/**
 * @typedef {object} RunKind
 * @property {"agents" | "program"} name by which the table of options has it
 * @property {"module" | "program"} option that names what is run
 * @property {number} words of the command line, besides options, that name it
 * @property {string} fits what is said about an option of the other kind, beside `program`
 * @property {boolean} keepsThreads whether threads go on to the next run, and may keep something in their globals
 * @property {boolean} keepsRow whether a kept run is made again by its row and all that is run, and not by its script
 * @property {boolean} printsOnce whether the output of a run isn't shown when it is made once more
 * @property {boolean} followsNode whether runs depend on the version of node, so that it is noted if that wasn't tried
 * @property {boolean} isPlain whether a run's log, records and stores are all that its script is made of
 * @property {boolean} mustCall whether a run fails in which nothing was done with the recorded memory
 * @property {boolean} hasMessages whether the last block of a script is for messages, which order what is done
 * @property {number} pilotSeconds for how many seconds at most an agent of a pilot may make no call: then the pilots
 * end, and nothing is known. A program may well make none for a while, and what is known mustn't depend on how fast it
 * is
 */

/** @type {Readonly<RunKind>} */
const OF_AGENTS = Object.freeze({
  name: "agents", option: "module", words: 1, fits: "needs", keepsThreads: false, keepsRow: false, printsOnce: false,
  followsNode: false, isPlain: true, mustCall: true, hasMessages: false, pilotSeconds: 2,
});

/** @type {Readonly<RunKind>} */
const OF_PROGRAM = Object.freeze({
  name: "program", option: "program", words: 0, fits: "doesn't go with", keepsThreads: true, keepsRow: true,
  printsOnce: true, followsNode: true, isPlain: false, mustCall: false, hasMessages: true, pilotSeconds: Infinity,
});

/** @param {{ program?: unknown }} options @returns {Readonly<RunKind>} of the runs that they ask for */
export const runKindOf = ({ program }) => (program === undefined ? OF_AGENTS : OF_PROGRAM);
