// What the referee of agents' runs knows besides the board: all agents of the plan take part, and a script can have all
// of their memory. That of a program's runs knows more (program-state.mjs).

/** @typedef {import("./ending/final-state.mjs").MoreBytes} MoreBytes */
/** @typedef {import("./windows/in-windows.mjs").Written} Written */
/** @typedef {import("./windows/windows.mjs").Window} Window */
/** @typedef {import("./words/program-names.mjs").ProgramNames} ProgramNames */
/** @typedef {import("./words/source-names.mjs").SourceNames} SourceNames */

/**
 * @typedef {object} RunState what a referee knows of its runs besides the board
 * @property {import("../memory/task-notes.mjs").TaskNotes} [tasks] what event loops have begun, if there are some
 * @property {string} [whyMissed] why unordered accesses of the run may be missed, if so
 * @property {number[]} all agents whose threads can be replaced
 * @property {() => void} begin a run begins
 * @property {() => void} forget nothing is known about the memory of its runs
 * @property {() => number[]} learn a run has ended: returns the agents that took part
 * @property {(bytes: string[]) => string[]} own the bytes of the blocks that the code has made
 * @property {(detail: string, isFound: boolean, names: SourceNames) => string} named how a run ended, in which places
 * that the recorder found are named; whether it found all that are there
 * @property {(ending: string, names: SourceNames) => string[]} standstill in lines, which agents have ended by
 * themselves, and what keeps idle ones alive
 * @property {(made: Written, withNames: (text: string) => string, list?: Window[]) => Written | undefined} inWindows a
 * run as its script and its trace have it, if they can
 * @property {(written: Written | undefined) => string | undefined} whyNoScript why the run can't have one, if so
 * @property {() => MoreBytes | undefined} moreBytes of blocks that no script can have
 * @property {(withNames: (text: string) => string) => ProgramNames | undefined} names of its threads and blocks, if
 * they have some
 */

/**
 * A message about code that isn't synchronous has a place in it, if one is known. What was thrown has its own stack.
 */
const NOT_SYNCHRONOUS = /^(?:agent \d+ )?(?:goes on later|returned a promise), /;

/** @type {(memory: import("../memory/recorded-memory.mjs").RecordedMemory, all: number[]) => RunState} */
export const agentsState = (memory, all) => ({
  all,
  begin: () => memory.reset(),
  forget: () => {},
  learn: () => all,
  own: (bytes) => bytes,
  named: (text, isFound, names) => (isFound || NOT_SYNCHRONOUS.test(text) ? names.withNames(text) : text),
  standstill: () => [],
  inWindows: (made) => made,
  whyNoScript: () => undefined,
  moreBytes: () => undefined,
  names: () => undefined,
});
