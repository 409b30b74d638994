// The types of the package. `tests/types` compares them with the code's own. They don't need node's types.
export * from "./every-schedule.cjs";
export * from "./options.cjs";

import type { ExploreOptions, RecordOptions } from "./options.cjs";

/**
 * Runs the agents of a module, or a program, once, under the schedule of one seed. The simulator checks the run, unless
 * `sabsim` is false. Fails with `Refused` for options or a module that can't be, with a `Difference` if the simulator
 * says something else, and with `NoSabsim` if the native program is chosen and isn't there.
 */
export function record(options: RecordOptions): Promise<Outcome>;

/**
 * Runs the agents of a module, or a program, under the schedules of many seeds, by workers that are kept from seed to
 * seed. The outcomes come in the order of the seeds. Runs that fail, and one in `checkEvery` of the others, have all
 * members, and are checked by the simulator. When no more is asked for, as after a `break`, all workers and processes
 * are ended. Throws `Refused` for options that can't be, and `NoSabsim`; fails with `Refused` for a module that can't
 * be, with a `Difference`, with `LostJob`, with `KeepsGlobals` for a program alone, and with its signal's reason.
 */
export function explore(options: ExploreOptions): AsyncGenerator<Outcome, void, void>;

/** What was asked for can't be: the message says why. */
export class Refused extends Error {}

/** The native program isn't there, or can't be run. */
export class NoSabsim extends Error {}

/**
 * The first failing run of a program was made once more in fresh threads, and isn't the same there: the program keeps
 * something in globals. The message says what differs.
 */
export class KeepsGlobals extends Error {}

/** The process of a job has ended by itself, or by others. */
export class LostJob extends Error {}

/** What the code saw isn't what the simulator says, or the simulator has failed: a defect. The message has both. */
export class Difference extends Error {
  constructor(message: string, outcome: Difference["outcome"], replayed: string, judged?: string);
  /** It has its trace if sabsim's verdict on it is what differs. */
  outcome: Pick<Outcome, "seed" | "script" | "report" | "choices" | "trace">;
  /** The report that sabsim wrote. */
  replayed: string;
  /** sabsim's verdict on the trace, if that is what differs. */
  judged?: string;
}

/**
 * How a run ended. `race`: it finished, `check` found nothing, and it has unordered accesses. `cut`: an agent of a
 * module in which none ever ends has made 100 calls; only runs that `everySchedule` makes end so. Of agents that use an
 * object: `not linearizable`, `lost wake-up`, or `blocked`: the operations that are open rightly wait.
 */
export type Ending = "finished" | "deadlock" | "stuck" | "failed" | "check" | "race" | "limit" | "cut"
  | "not linearizable" | "lost wake-up" | "blocked";

/** The outcome of a run. */
export interface Outcome {
  seed: number;
  ending: Ending;
  /** Whether it is a failing run, by its ending and by what is allowed. */
  fails: boolean;
  /** Why it ended so; empty if all agents finished. */
  detail: string;
  moves: number;
  /** How many calls of Atomics were begun. */
  calls: number;
  /** How many ordinary reads and writes were seen. */
  ordinary: number;
  /** For each agent, how many of its calls returned, and how many began. */
  progress: { returned: number; calls: number }[];
  /**
   * The state at the end. `hash`: of how it ended and of all bytes. `shown`: the beginnings of each buffer in
   * hexadecimal digits. `named`: the values of all that has a name; null if nothing has one.
   */
  state: { hash: string; shown: string[]; named: string | null };
  /** The unordered accesses, each pair of lines of code once. Each data race of ECMA-262 is one of them. */
  races: Race[];
  /** The bytes of each buffer as it was left, in hexadecimal digits. */
  bytes?: string[];
  /** What each agent's calls returned, as a report spells it; null: a wait that goes on. */
  answers?: (string | null)[][];
  /** What `sabsim replay` reads. */
  script?: string;
  /** Which ordinary writes the script has: all, or those of bytes that some call of Atomics touches. */
  scriptHolds?: "all" | "touched";
  /** Why there is no script. */
  noScript?: string;
  /** If a program's run shares more memory than a script can have: where the bytes of its buffers are. */
  windows?: MemoryWindow[];
  /** What sabsim must report. */
  report?: string;
  /**
   * What made a failing run fail, in short: the first lines of what was thrown or what agents were at, and the lines of
   * code. Runs that fail alike have the same ones, up to the message's numbers. One that ended as `race` has its
   * `races`.
   */
  failure?: { message: string[]; sources: string[] };
  /**
   * Where each agent is that hasn't ended, if the run ended as `deadlock` or as `limit`: the one that has met
   * the limit first, then those that wait, in order of arrival.
   */
  standing?: Standing[];
  /** Each event as an object of JSON, a line each. The first line may say that accesses are missing (`unseen`). */
  trace?: string;
  /** By which arrays the trace's ordinary accesses were made, and what they read. */
  accesses?: Accesses;
  /** Why there is no trace, though it was wanted. */
  noTrace?: string;
  /** The code of each file that the trace names; null if it can't be read, or is longer than 2^20 characters. */
  sources?: { file: string; text: string | null }[];
  /**
   * For a program's run with its trace: timers, immediates and other tasks, each behind so many events of the trace.
   * For a module's run what agents chose, if one did.
   */
  tasks?: { event: number; agent: number; text: string; source: string | null }[];
  /** For the same run: the number of each message, and what is in it, shortened. */
  messages?: [number, string][];
  /** For a program's run: each thread's file and where it was started; empty for the first one. */
  threads?: string[];
  /** Which agent moved with each draw, in order (plus 16: by a real answer); of the shortest run, and of a program. */
  row?: number[];
  /** For each agent of a module what it chose, if one did: what was asked, and what was returned. */
  choices?: Choice[][];
  /** For a failing run in which a timed wait has ended early: what time must pass for that, and before what. */
  onlyIf?: string;
  /**
   * For a run that finished and has timed waits: those that ended only because their time was up. Nothing else could
   * move, and their word had changed, or no other agent could ever go on. If no run serves its place, it is a sleep.
   */
  onlyByTime?: OnlyByTime[];
  /** If a run has timed waits: the places at which agents wait, and that other agents have notified or written. */
  served?: { block: number; byte: number }[];
  /** Memory and threads that agents used and that aren't recorded; sockets, pipes and child processes of a program. */
  unrecorded?: string[];
  real?: string[];
  /** In the last outcome of `explore`: how the first seed's run differed when it was made once more, if it did. */
  remembers?: { seed: number; differs: string; was: string; is: string; threw: boolean; real: boolean };
  /** Whether sabsim has replayed the run and, if it was watched, looked for unordered accesses, and says the same. */
  checked: boolean;
  /** Why it hasn't. */
  unchecked?: string;
  /** The run as its seed makes it, if the outcome is that of a shorter one. */
  original?: Omit<Outcome, "original" | "shortened" | "remembers">;
  /** The result of the option `shorten`, if the run failed. */
  shortened?: Shortened;
}

/**
 * What an agent chose: `again()` returned a boolean, or `choose(n)`, with n as the first number, the second one. In a
 * replay of a run of `--all` there may be others: whether a long time had passed at a look at a clock (1), or not (0);
 * which random number was drawn; and that random bytes were drawn that are never equal to others (unique). The first
 * number says how many there were to choose from.
 */
export type Choice = ["again", boolean]
  | ["choose" | "time" | "lasting time" | "random" | "unique" | "lasting unique", number, number];

/** Bytes of a program's buffer, from `from` to `to` - 1, that are in a block of the script and of the trace. */
export interface MemoryWindow {
  /** The number by which texts call the buffer, and the line where it was made; empty if that isn't known. */
  buffer: number;
  name: string;
  from: number;
  to: number;
  /** Where they begin. */
  block: number;
  byte: number;
}

/** Where an agent is that hasn't ended. */
export interface Standing {
  agent: number;
  /** It waits for a notify, asks for a call, has met a limit by doing the same again and again, or in another way. */
  does: "waits" | "asks" | "spins" | "runs";
  /** In which of its calls it waits, or for which it asks, counted from 0; null: it is in none. */
  call: number | null;
  /** Where it waits, by its name; null: it doesn't wait, or the place has no name. */
  place: string | null;
  /** Where it waits; null: it doesn't. */
  block: number | null;
  byte: number | null;
  /** The line of code; null: it isn't known. */
  file: string | null;
  line: number | null;
  column: number | null;
}

/** What a trace doesn't say about its ordinary accesses. */
export interface Accesses {
  /** The typed arrays of the code by which they were made: each by its name in texts, its kind and where it is. */
  arrays: { name: string; kind: string; block: number; offset: number; length: number }[];
  /**
   * For each: its position in the trace, that of its array, and as JavaScript writes it what it read; null: it wrote,
   * or read more than one element.
   */
  made: [event: number, array: number, value: string | null][];
}

/** A wait that ended only because its time was up. */
export interface OnlyByTime {
  agent: number;
  /** File, line and column. */
  line: string | null;
  /** Its timeout, without a fraction. */
  milliseconds: number;
  /** Where it waited. */
  block: number;
  byte: number;
}

/** The result of shortening a failing run. */
export interface Shortened {
  /** How many runs it took. */
  runs: number;
  /** How often the agent that moved changed: in the run as it was found, and in the shortest. */
  changes: { before: number; after: number };
  /** How many calls of Atomics were begun, in the same two runs. */
  calls: { before: number; after: number };
  /** Why it was ended before all was tried. */
  stopped?: string;
  /** Why the run is returned as it was found. */
  unchanged?: string;
}

/** What `record.mjs --format json` and `merge.mjs --format json` print: the summary of many runs. */
export type Summary = import("./summary.cjs").Summary;

/** Two unordered accesses. */
export interface Race {
  /** The lines of code, in their order; of one that isn't known, what it did. */
  lines: [string, string];
  text: string;
  /** The one that was made first before the other. */
  sides: [RaceSide, RaceSide];
}

/** One of two unordered accesses. */
export interface RaceSide {
  agent: number;
  access: "read" | "write" | "read and write";
  atomic: boolean;
  block: number;
  /** Its first byte. */
  byte: number;
  /** How many bytes. */
  size: number;
  /** The element on which the two meet: its name, or its view's and its index. */
  element: string;
  /** Which of the agent's calls it is; of an ordinary access, how many began before. */
  call: number;
  /** File, line and column. */
  source: string | null;
}

/**
 * What a module of agents exports by default: it is called once for each agent and run, and must be synchronous. So it
 * returns no object, which could be a promise or an iterator; what else it returns isn't looked at.
 */
export type Agent = (run: AgentRun) => void | undefined | null | boolean | number | bigint | string | symbol;

/** What an agent is called with. */
export interface AgentRun {
  /** Every byte is zero, or as `init` left it. */
  buffers: SharedArrayBuffer[];
  /** The agent's number, from 0. */
  agent: number;
  /** How many agents there are. */
  agents: number;
  /** The words after `--` on the command line, or the option `args`. */
  args: string[];
  /** Whether the agent makes another round, as the seed decides: at most as many in a run as `rounds` says. */
  again: () => boolean;
  /** A whole number from 0 to `count` - 1, as the seed decides. `count` is a whole number from 1 to 1,000. */
  choose: (count: number) => number;
}

/** What a module of agents may export as `setup`, for what the command line or the options leave open. */
export interface Setup {
  /** How many agents, 1 to 16. */
  agents?: number;
  /** The bytes of each buffer: one to four, each 0 to 65,536. */
  buffers?: number[];
  /** The agents that can't block: `Atomics.wait` throws TypeError there. Else all can. */
  noBlock?: number[];
  /** What words and arrays are called, in scripts, reports and pictures. */
  names?: Record<string, NamedPlace>;
}

/** The kind of a typed array: its constructor's name without `Array`. */
export type Kind = "Int8" | "Uint8" | "Uint8Clamped" | "Int16" | "Uint16" | "Int32" | "Uint32" | "Float32" | "Float64"
  | "BigInt64" | "BigUint64";

/**
 * What a name stands for: `[kind, buffer, index]` one element of an array of that kind over that whole buffer,
 * `[kind, buffer]` all of that array, and a number alone the element of that index of an Int32Array on buffer 0. With
 * members it is a part of a buffer, as the constructor of a typed array takes it: indices count from its offset.
 */
export type NamedPlace = number | [kind: Kind, buffer: number] | [kind: Kind, buffer: number, index: number]
  | NamedPart;

/** A part of a buffer that has a name. */
export interface NamedPart {
  kind: Kind;
  /** The buffer's position. */
  buffer: number;
  /** Its first byte, a multiple of an element's bytes; else 0. */
  offset?: number;
  /** How many elements; else all up to the buffer's end. */
  length?: number;
}

/** What a module of agents may export as `init` and as `check`: it is called when no agent runs. */
export type WithBuffers = (buffers: SharedArrayBuffer[], run: { agents: number; args: string[] }) => unknown;
