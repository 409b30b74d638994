// The summary of many runs, as `record.mjs --format json` and `merge.mjs --format json` print it: one JSON object.
// All members are always there; later versions may add some. `tests/types` compares this type with the code's own.

import type { OnlyByTime, Standing } from "./recorder.cjs";

/** The seeds from the first to the last, both included. */
export interface SeedRange {
  first: number;
  last: number;
}

/** A block and the byte in it at which an element begins. */
export interface Place {
  block: number;
  byte: number;
}

/** How often something was in the run as it was found, and in the shortest one. */
export interface Change {
  before: number;
  after: number;
}

/** An entry with the number of runs that have it, and the least of their seeds. */
export type Counted<Entry> = Entry & { runs: number; first: number };

/**
 * What runs have in common. Entries of most runs come first; among equals the one of the least seed. At most 4,096 are
 * listed: those whose hash, lines, message or reason come first by their spelling.
 */
export interface Listed<Entry> {
  listed: Counted<Entry>[];
  /** How many runs have no entry that is listed. */
  others: number;
}

/**
 * What failing runs have in common. `early` is how many of an entry's runs fail only after the early end of a timed
 * wait, and `first` is the least seed of the others. An entry without others comes last, with the least seed of all.
 */
export type FailingListed<Entry> = Listed<Entry & { early: number }>;

/** What the runs and their checks depend on, by the options' names; null: it wasn't given. */
export type SharedOptions = Record<string, unknown>;

/** What was asked for. Summaries are joined if `digest` and `options` are the same and no seed is in two. */
export interface Asked {
  /** As the command line names it. */
  module: string;
  /** SHA-256 of the module's file, in hexadecimal digits. */
  digest: string;
  /** The seeds of all shards. */
  seeds: SeedRange[];
  /** Null: all seeds, or a joined summary. */
  shard: { number: number; of: number } | null;
  options: SharedOptions;
}

/** The failing run of the least seed; one that fails without the early end of a timed wait comes first. */
export interface FirstFailing {
  seed: number;
  ending: string;
  /** What happened, in lines. */
  detail: string[];
  /** What time must pass for an early end: "only if 5 s pass before agent 1's next call"; null: none is needed. */
  onlyIf: string | null;
  /** Why it has no script; null: it has one. */
  noScript: string | null;
  /** Of a deadlock or a limit that was met: where each agent is that hasn't ended. */
  standing: Standing[];
}

/** What the shortening of the first failing run did. */
export interface Shortening {
  /** How many runs it took. */
  runs: number;
  /** Changes of agents. */
  changes: Change;
  /** Calls of Atomics that were begun. */
  calls: Change;
  /** Why it was ended early; null: it wasn't. */
  stopped: string | null;
  /** Why the run is kept as it was found; null: the shortest is kept. */
  unchanged: string | null;
  /** Whether the simulator says the same about the shortest run. */
  checked: boolean;
  /** What happened in the shortest run, in lines, if that differs. */
  detail: string[];
  /** As in `FirstFailing`, of the shortest run. */
  onlyIf: string | null;
}

/** A final state of runs. */
export interface FinalState {
  ending: string;
  /** SHA-256 of ending and bytes, in base64. */
  hash: string;
  /** Of each buffer the first 24 bytes, in hexadecimal digits. */
  shown: string[];
  /** The values of all that has a name, as text; null: nothing has one. */
  named: string | null;
}

export interface Summary {
  /** The number of this form: 4. */
  summary: number;
  asked: Asked;
  /** The seeds that this summary is of. */
  seeds: SeedRange[];
  /** Why not all runs were made ("stopped", "interrupted by SIGINT"), and how many were wanted; null: all were made. */
  stopped: { why: string; wanted: number } | null;
  /** Seeds that were asked for and that no summary has; only a joined one has any. */
  missing: SeedRange[];
  runs: number;
  /** How many runs failed. */
  failed: number;
  /** Each ending that occurs, in the order of the text. */
  endings: { failing: Counted<{ ending: string }>[]; passing: Counted<{ ending: string }>[] };
  firstFailing: FirstFailing | null;
  /** How many of the failing runs fail only after the early end of a timed wait. */
  early: number;
  /**
   * Of the runs that finished, waits that ended only because their time was up. Nothing else could move then, and the
   * word had changed, or no other agent could ever go on. `served` are the places at which agents wait and that others
   * notify or write in some run. The text reports the waits at these places; others are sleeps.
   */
  onlyByTime: Listed<OnlyByTime> & { served: Place[] };
  /** How many of the runs that ended as `failed` threw; the others were stopped. */
  threw: number;
  /**
   * What made runs fail, except races: the first lines of the message, and the lines of code. Runs with the same
   * ending, the same lines of code and the same message up to its numbers are one entry.
   */
  failures: FailingListed<{ ending: string; message: string[]; sources: string[] }>;
  shortened: Shortening | null;
  /** Unordered accesses: whether a run that has some may pass, how many runs have some, and each pair of lines. */
  races: { allowed: boolean; runs: number; pairs: FailingListed<{ lines: string[] }> };
  /** Shared memory and threads that agents use and that aren't recorded: what it was, and where it was made. */
  unrecorded: { allowed: boolean; runs: number; used: Listed<{ what: string }> };
  /** Sockets, pipes and child processes: how many runs used some, what it was, and where. */
  real: { runs: number; used: Listed<{ what: string }> };
  /**
   * How the run of the first seed differed when it was made once more at the end; null: it didn't. `differs` is
   * "ending", "bytes" or "acts". `was` and `is` are the endings. `threw`: one of the two ended by a throw.
   * `real`: it used sockets, pipes or child processes.
   */
  remembers: { seed: number; differs: string; was: string; is: string; threw: boolean; real: boolean } | null;
  states: { failing: FailingListed<FinalState>; passing: FailingListed<FinalState> };
  /**
   * Whether runs were to be checked by the simulator; by which ones: "module" with the first 12 digits of its file's
   * SHA-256, or "program" with its version; about how many runs it says the same, with exact repeats, which the module
   * isn't asked about again; and whether it judged these too.
   */
  sabsim: { asked: boolean; versions: string[]; checked: number; judges: boolean };
  /** How many scripts have only the ordinary writes of bytes that calls touch, and why runs have none. */
  scripts: { parts: number; none: Listed<{ why: string }> };
  /** How many calls of Atomics were begun. */
  calls: number;
  /** How many ordinary reads and writes were made; null: they weren't watched. */
  accesses: number | null;
  /** What was not seen, a sentence each. */
  unseen: string[];
  /** Versions of node that ran programs, and that weren't tried. Earlier summaries of this form have none. */
  untriedNodes?: string[];
  /** Where files are: the folder as it was given, its path, the files' names, and what their readers must know. */
  kept: { folder: string; path: string; files: string[]; notes?: string[] } | null;
  /** What is not kept, and why, a sentence each. */
  notKept: string[];
  /** What went wrong, as standard error has it. */
  problems: string[];
}
