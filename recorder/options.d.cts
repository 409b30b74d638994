// The types of the options that the library takes.

// Without this line what doesn't say `export` would be exported, too.
export {};

import type { WithBuffers } from "./recorder.cjs";

/** A URL, if the types of the user's project know one: node's, or those of browsers. */
type ModuleUrl = typeof globalThis extends { URL: new (...given: never[]) => infer Url } ? Url : never;

/** An AbortSignal, if the types of the user's project know one. */
type StopSignal = typeof globalThis extends { AbortSignal: { prototype: infer Signal } } ? Signal : never;

/** What each run may have. */
export interface RunOptions {
  // tools/sections.mjs makes this from the table of options: each
  /** Words for the agents, or for the program. Else none. */
  args?: string[];
  /**
   * Who moves next: `uniform` (all agents that can move are equally likely), `switch:P` (another agent moves next with
   * likelihood P, from 0 to 1), `partial-order` (by random priorities) or `mixed` (the seed chooses `partial-order` or
   * a `switch:P`). Else "mixed".
   */
  strategy?: "mixed" | "uniform" | "partial-order" | `switch:${number}`;
  /** Draws who moves next before each call, not only before those by which agents meet in pilot runs. Else false. */
  everywhere?: boolean;
  /**
   * The share of draws, from 0 to 1, that may end a timed wait early, while something else can move. 0: time passes
   * only if nothing else can move. `never`: not even then, so a lost wake-up is a deadlock. A number from 0 to 1, or
   * never; else 0.05.
   */
  timeouts?: number | "never";
  /**
   * Unordered accesses: two agents access a byte, at least one writes it, they don't both use Atomics on just the same
   * bytes, and nothing orders them. `fail`: a run that has some fails, with the ending `race`. `allow`: they are only
   * reported. Else "fail".
   */
  races?: "fail" | "allow";
  /** A run that meets a limit, as one that spins. `fail`: it fails. `allow`: it is only reported. Else "fail". */
  limits?: "fail" | "allow";
  /** How many moves a run may have. A whole number from 1 to 100,000; else 100,000. */
  maxMoves?: number;
  /** For how long an agent may make no call. A number above 0, and 3,600 at most; else 10. */
  seconds?: number;
  /**
   * The path of the native program that checks runs in place of the simulator's module, from the working directory.
   * `false`: runs aren't checked. Else the one that SABSIM of the environment names; else the module.
   */
  sabsim?: string | boolean;
  /** Whether the outcome has its trace, and the code of the files that it names. Else false. */
  trace?: boolean;
  // Up to here.
}

/** What the runs of a module of agents have. */
export interface OfModule {
  program?: undefined;
  // tools/sections.mjs makes this from the table of options: agents
  /** The agents' module: a URL, or a path, from the folder of the file that calls `record`. */
  module: string | ModuleUrl;
  /** How many agents there are. A whole number from 1 to 16; else as the module's `setup` says. */
  agents?: number;
  /** The bytes of each buffer, one to four. Each a whole number from 0 to 65,536; else as the module's `setup` says. */
  buffers?: number[];
  /**
   * The agents that can't block: their Atomics.wait throws TypeError. Each a whole number from 0 to 15; else as the
   * module's `setup` says.
   */
  noBlock?: number[];
  /**
   * Reads and writes without Atomics: `watch` (sees each, and looks for unordered accesses), `store` (finds only what
   * changed) or `refuse` (fails a run at a byte that changed). Else "watch".
   */
  ordinary?: "watch" | "store" | "refuse";
  /**
   * Shared memory that isn't recorded, as a SharedArrayBuffer that the code makes itself. `fail`: a run in which agents
   * use some fails. `allow`: it is only reported. Else "fail".
   */
  unrecorded?: "fail" | "allow";
  /** The time that clocks show agents: `run` (the run's own, which comes from the seed) or `real`. Else "run". */
  clock?: "run" | "real";
  /**
   * How often an agent's `again()` returns true in a run of a seed, at most. What `all` searches has any number of
   * rounds. A whole number from 1 to 1,000; else 8.
   */
  rounds?: number;
  /**
   * How many operations of an object each agent makes at most, or `any`. `any` is as many rounds as `rounds` says, and
   * in what `all` searches any number of them. A whole number from 1 to 1,000, or any; else 8; with `--all` ever more.
   */
  each?: number | "any";
  /**
   * Fills the buffers before the run, and before each of its pilots, in place of the module's `init`. It is called in
   * this thread.
   */
  init?: WithBuffers;
  /**
   * Is called after a run that finished, in this thread, in place of the module's `check`. What it throws fails the
   * run, as does `false` or an error that it returns.
   */
  check?: WithBuffers;
  // Up to here.
}

/** What the runs of a whole program have, which makes its own threads and shared memory. */
export interface OfProgram {
  module?: undefined;
  // tools/sections.mjs makes this from the table of options: program
  /**
   * In place of `module` the main module of a whole program, which makes its own threads and shared memory: a URL, or a
   * path, as for `module`.
   */
  program: string | ModuleUrl;
  /**
   * A program's timer or timed wait may end early, but only if no thread, task or other time is then more than so many
   * milliseconds late. 0: none ends early. A number from 0 to 2,147,483,647; else 100.
   */
  early?: number;
  /**
   * A program's run that is stuck. `fail`: it fails. `allow`: it is only reported, as for a program that people end by
   * Ctrl-C. Else "fail".
   */
  stuck?: "fail" | "allow";
  /**
   * The program is for browsers: its main module stands for a page, and each Worker runs a script or a module by its
   * URL. Else false.
   */
  web?: boolean;
  /** The runs whose output is shown: `all` or `none`. Else the first seed's run. */
  programOutput?: "all" | "none";
  /**
   * Plain aligned accesses of WebAssembly to shared memory are `ordinary`, or `relaxed`, as those of C's volatile.
   * Relaxed ones count as loads and stores of Atomics, and have no data race with these. They also order other
   * accesses, whose data races aren't found then. Else "ordinary".
   */
  wasmAccesses?: "ordinary" | "relaxed";
  // Up to here.
}

/** What one run may have besides. */
export interface OneRun {
  // tools/sections.mjs makes this from the table of options: one
  /** The seed of the run, which draws who moves next. A whole number from 0 to 2^53 - 1; else 1. */
  seed?: number;
  /**
   * Whether the shortest run that fails in the same way takes the place of the run that was found: in what is returned,
   * shown and kept. Else false for `record`, and true in tests.
   */
  shorten?: boolean;
  // Up to here.
}

/** What many runs may have besides. */
export interface ManyRuns {
  // tools/sections.mjs makes this from the table of options: many
  /**
   * As `"1..1000"`, which begins at 1 and ends at 1000; a number: so many of them, from 1 on; or `{ first, last }`.
   * With `all` they are 1..300 if none are given, or fewer if every schedule can be tried. Else "1..100".
   */
  seeds?: string | number | { first: number; last: number };
  /** Starts new workers for each seed. A kept run of a program notes it, and is replayed so. Else false. */
  fresh?: boolean;
  /**
   * Ends at the first failing run. That is the one of the lowest seed, whatever the number of jobs. Runs in which a
   * wait ended early don't count. Else false.
   */
  failFast?: boolean;
  /**
   * The simulator checks every run that fails, and one in so many of the others; 0: none at all. A whole number from 0
   * to 2^53 - 1; else 1.
   */
  checkEvery?: number;
  /**
   * How many groups of workers run side by side. A single one runs in this process; each of several has a process of
   * its own. With several, `init` and `check` can't be given: they are functions of this process. Outcomes don't depend
   * on it. A whole number from 1 to 64; else 1.
   */
  jobs?: number;
  /** Ends all runs when it is aborted. Its reason is thrown. */
  signal?: StopSignal;
  // Up to here.
}

/** The options of one run: of a module of agents, or of a program. */
export type RecordOptions = RunOptions & OneRun & (OfModule | OfProgram);

/** The options of many runs: of a module of agents, or of a program. */
export type ExploreOptions = RunOptions & ManyRuns & (OfModule | OfProgram);

/** How far every schedule is tried. */
export interface OfEvery {
  // tools/sections.mjs makes this from the table of options: every
  /**
   * How many seconds the search of every schedule may take, with the runs of its seeds. A number above 0, and 3,600 at
   * most; else 60.
   */
  within?: number;
  /**
   * How many states the search of every schedule finds at most. A whole number from 1 to 20,000,000; else 1,000,000.
   */
  states?: number;
  // Up to here.
}
