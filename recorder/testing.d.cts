// The types of `sabsim/test`. `tests/types` compares them with the code's own.

import type { ManyRuns, OfModule, OfProgram, RunOptions } from "./options.cjs";

/** What is done with a failing run. */
export interface OfTrial {
  // tools/sections.mjs makes this from the table of options: trial
  /**
   * Tries every schedule of a module of agents, as `everySchedule` does. The test fails if something is found, if not
   * every schedule could be tried, and if its time was over before all was done. Else false.
   */
  all?: boolean;
  /**
   * How many seconds the search of every schedule may take, with the runs of its seeds. A number above 0, and 3,600 at
   * most; else 60.
   */
  within?: number;
  /**
   * How many states the search of every schedule finds at most. A whole number from 1 to 20,000,000; else 1,000,000.
   */
  states?: number;
  /**
   * The folder in which the failing run is kept. A relative path begins at the working directory. Else a folder of each
   * test's own among the system's temporary files, the same one each time.
   */
  out?: string;
  /**
   * Whether the shortest run that fails in the same way takes the place of the run that was found: in what is returned,
   * shown and kept. Else false for `record`, and true in tests.
   */
  shorten?: boolean;
  // Up to here.
}

/**
 * The runs of a trial: they have the options of `explore` except `failFast`, since the first failing one is the last.
 */
export type TrialRuns = RunOptions & Omit<ManyRuns, "failFast"> & OfTrial;

/** What a trial of a module of agents takes. */
export type TrialOptions = TrialRuns & OfModule;

/** What a trial of a program takes. */
export type ProgramTrialOptions = TrialRuns & OfProgram;

/**
 * A test of node:test that runs the agents of a module under the schedules of many seeds, up to the first run that
 * fails. Then it reports the seed, how the run ended, its last acts as sabsim explains them, and where its files are.
 */
export function testAgents(name: string, options: TrialOptions): Promise<void>;

/** The same as a part of any test: it fails with an error named RunFailed if a run fails. */
export function assertAgents(options: TrialOptions): Promise<void>;

/**
 * A test of node:test that has agents try the operations of an object, as `testAgents` runs agents. With `all` they
 * make every use by 2 agents with up to 2 operations each, and by 3 with 1, unless `agents` or `each` is given.
 */
export function testObject(name: string, options: TrialOptions): Promise<void>;

/** The same as a part of any test: it fails with an error named RunFailed if a run fails. */
export function assertObject(options: TrialOptions): Promise<void>;

/** A test of node:test that runs a whole program under the schedules of many seeds, as `testAgents` runs agents. */
export function testProgram(name: string, options: ProgramTrialOptions): Promise<void>;

/** The same as a part of any test: it fails with an error named RunFailed if a run fails. */
export function assertProgram(options: ProgramTrialOptions): Promise<void>;
