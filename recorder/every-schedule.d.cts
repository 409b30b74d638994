// The types of `everySchedule` of the library. `tests/types` compares them with the code's own.

import type { ExploreOptions, OfEvery } from "./options.cjs";

/**
 * Tries every schedule of the agents of a module. Their code is learned, each agent alone, and all states are searched.
 * Then each step is learned again in the code as it is written, and the runs of the seeds are compared with what was
 * learned. Fails with `Refused` for options or a module that can't be, and with `NotAsLearned`.
 */
export function everySchedule(options: EveryOptions): Promise<EverySchedule>;

/** What was learned of agents isn't what they do: the message says how that is seen. */
export class NotAsLearned extends Error {}

/** What `everySchedule` takes: the options of `explore`, for a module of agents, and how far it searches. */
export type EveryOptions = ExploreOptions & OfEvery;

/** Something that was found in every schedule. */
export interface FoundBySchedule {
  kind: "deadlock" | "threw" | "check" | "race" | "no way out" | "limit" | "failed" | "not linearizable"
    | "lost wake-up";
  /** What was thrown, what `check` found, which lines race, or how a real run ended; empty if the kind says all. */
  text: string;
  /** In how many states it is; 0: only real runs have shown it. */
  states: number;
  /** How many real runs have shown it, if they alone have; else 0. */
  runs: number;
  /** Of the first of these runs. */
  seed: number | null;
  /** Of the schedule that is shown; 0 if real runs alone have shown it. */
  acts: number;
  /** Of agents, in that schedule. */
  changes: number;
  /** Whether a timed wait ends in it while something else can move. */
  isEarly: boolean;
  /** How the real run by that schedule ended; null: it isn't shown. */
  detail: string[] | null;
  /** Why it isn't shown; null if it is. */
  notShown: string | null;
  /** What time must pass in that run. */
  onlyIf: string | null;
  /** How many operations of an object are begun in the schedule that is shown, if it is about their history; else 0. */
  operations: number;
  /** Whether two agents draw the same random number in the schedule that is shown: of all numbers that is rare. */
  drewSame: boolean;
}

/** How many agents use an object, each with how many operations at most. */
export interface UseSize {
  agents: number;
  each: number | "any";
}

/** What was tried of an object. */
export interface TriedUses {
  /** The sizes of which every use was tried under every schedule. */
  finished: UseSize[];
  /** The size of the search that is reported. */
  size: UseSize;
  /** The size that was tried last. */
  next: UseSize;
  /** Why not every use of it was tried; null if it was. */
  open: string | null;
  /** Whether `Model` says what is right; else it is the object itself, used by one agent alone. */
  hasModel: boolean;
  /** Whether the object itself looks at the number of its agent: agent 0 is that agent. */
  looksAtNumber: boolean;
  /** Operations that have always thrown there. */
  alwaysThrow: string[];
  /** How many states of it were needed. */
  modelStates: number;
  /** How many sets there are of what operations may have done. */
  sets: number;
  /** In how many states the history wasn't judged. */
  notJudged: number;
}

/** What is reported about every schedule of a module of agents. */
export interface EverySchedule {
  /** What was tried of an object; null if the module is none of an object. */
  uses: TriedUses | null;
  /** Whether every schedule was tried. */
  closed: boolean;
  /** Why not. */
  open: string | null;
  /** Whether all was done: every schedule was tried, and there was time for all that is done besides. */
  isWhole: boolean;
  agents: number;
  /**
   * Whether states that differ only by an exchange of like agents count as one. That is so if two agents do the same at
   * the same lines, and can both block, or both can't.
   */
  areAlike: boolean;
  states: number;
  acts: number;
  /** All schedules up to so many acts were tried; null: every one was. */
  depth: number | null;
  /** The bytes of each buffer at the end, in hexadecimal digits, and as a summary has them. */
  finals: { states: number; blocks: string[]; text: string }[];
  /** How many different bytes there are at the end. */
  finalCount: number;
  found: FoundBySchedule[];
  /**
   * Whether no agent ever ends. That is no finding. Each real run is cut when one has made 100 calls, and `check` isn't
   * called.
   */
  neverEnds: boolean;
  /** How many moments of an agent there are: calls, choices, and reads that are acts of their own. */
  moments: number;
  /** How many of these are choices, looks at clocks and random numbers. Each number was tried at each of them. */
  choices: number;
  /** The line at which an agent looks at a clock and keeps the time from round to round; null if none does. */
  keptClock: string | null;
  /** The line at which an agent draws eight or more random bytes and keeps them from round to round; else null. */
  keptDraw: string | null;
  /** Whether an agent draws random numbers: only the least, one in the middle and the greatest were tried. */
  drawsRandom: boolean;
  /** Whether an agent draws eight or more random bytes at once: only draws that are never equal were tried. */
  drawsUnique: boolean;
  /** How many steps were learned; each twice. */
  edges: number;
  /** How many of these were learned both times by the same history. */
  edgesByOne: number;
  /**
   * How many ways lead to moments that have several. A way is an edge that leads to the moment, behind the shortest way
   * to its start.
   */
  ways: number;
  /** Behind how many of these the second learning has tried what the agent does then: of each moment 16 at least. */
  waysTried: number;
  /** Moments that were compared with no others: why, how many, and the line of the first one. */
  hidden: { why: string; nodes: number; line: string }[];
  /** What can be changed in the module, so that every schedule can be tried, or moments can be compared. */
  advice: string[];
  /** How many real runs agree with what was learned. */
  realRuns: number;
  /**
   * How many of these went by schedules of the search that go over edges of the automata, and over how many edges of
   * how many. Null if none did: if seeds were given, or no agent ever ends.
   */
  covered: { runs: number; edges: number; of: number } | null;
  /** The seeds of those for which there was no time. */
  notRun: { first: number; last: number }[];
  /**
   * Whether each of them has loaded the modules anew though that wasn't asked for: the modules keep something from run
   * to run, so they do as learned only then.
   */
  freshened: boolean;
  /** How many have no whole trace, and so weren't compared. */
  notCompared: number;
  /** Whether the proved search has found the same: the numbers of states and acts are its own then. */
  searchProved: boolean;
  /** Why there was no proved search; null if there was one, or if not every schedule was tried. */
  notProved: string | null;
  /**
   * The automaton with the most nodes. Then the line whose results lead to the most nodes, to how many, and how many
   * different results a moment there has at most.
   */
  widest: { automaton: number; nodes: number; line: string | null; follow: number; answers: number } | null;
  milliseconds: number;
}
