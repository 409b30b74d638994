// Compares the types that the package declares (recorder.d.cts) with those of the code: each pair must be the same.

import * as declared from "../recorder.mjs";
import * as difference from "../lib/check/difference.mjs";
import * as exploring from "../lib/library/explore.mjs";
import * as every from "../lib/library/every-schedule.mjs";
import * as recording from "../lib/library/record-runs.mjs";
import * as refused from "../lib/options/refused.mjs";
import * as remote from "../lib/seeds/remote-job.mjs";
import * as again from "../lib/seeds/first-again.mjs";
import * as native from "../lib/simulator/native.mjs";
import * as declaredTesting from "../testing.mjs";
import * as writtenTesting from "../lib/suite/tests.mjs";
import type {
  ExploreOptions, ProgramTrialOptions, TrialOptions, WithBuffers,
} from "../lib/library/library-options.mjs";
import type { Ending } from "../lib/run/outcome.mjs";
import type { Side, RaceReport } from "../lib/run/races/race-reports.mjs";
import type { Shortened } from "../lib/shorter/shorten.mjs";
import type { WholeSummary } from "../lib/command/summary-form.mjs";

type Same<One, Other> =
  (<T>() => T extends One ? 1 : 2) extends (<T>() => T extends Other ? 1 : 2) ? true : false;

/** Makes one object of an intersection, and of all that is in it. */
type Flat<T> = T extends Function | URL | AbortSignal ? T : T extends object ? { [Name in keyof T]: Flat<T[Name]> } : T;

type Holds<T extends true> = T;

export type Held = [
  Holds<Same<Flat<declared.RecordOptions>, Flat<recording.RecordOptions>>>,
  Holds<Same<Flat<declared.ExploreOptions>, Flat<ExploreOptions>>>,
  Holds<Same<Flat<declared.EveryOptions>, Flat<every.EveryOptions>>>,
  Holds<Same<Flat<declared.EverySchedule>, Flat<every.EveryData>>>,
  Holds<Same<Flat<declaredTesting.TrialOptions>, Flat<TrialOptions>>>,
  Holds<Same<Flat<declaredTesting.ProgramTrialOptions>, Flat<ProgramTrialOptions>>>,
  Holds<Same<keyof typeof declaredTesting, keyof typeof writtenTesting>>,
  Holds<Same<Flat<declared.Outcome>, Flat<recording.RecordedOutcome>>>,
  Holds<Same<declared.Ending, Ending>>,
  Holds<Same<Flat<declared.Race>, Flat<RaceReport>>>,
  Holds<Same<Flat<declared.RaceSide>, Flat<Side>>>,
  Holds<Same<Flat<declared.Shortened>, Flat<Shortened>>>,
  Holds<Same<Flat<declared.Summary>, Flat<WholeSummary>>>,
  Holds<Same<Parameters<declared.WithBuffers>, Parameters<WithBuffers>>>,
  Holds<Same<ReturnType<declared.WithBuffers>, ReturnType<WithBuffers>>>,
  Holds<Same<Flat<declared.Difference["outcome"]>, Flat<difference.Difference["outcome"]>>>,
  Holds<Same<ConstructorParameters<typeof declared.Refused>, ConstructorParameters<typeof refused.Refused>>>,
  Holds<Same<keyof declared.Difference, keyof difference.Difference>>,
  Holds<Same<keyof declared.NoSabsim, keyof native.NoSabsim>>,
  Holds<Same<ConstructorParameters<typeof declared.LostJob>, ConstructorParameters<typeof remote.LostJob>>>,
  Holds<Same<ConstructorParameters<typeof declared.KeepsGlobals>, ConstructorParameters<typeof again.KeepsGlobals>>>,
  Holds<Same<keyof typeof declared, "Difference" | "KeepsGlobals" | "LostJob" | "NoSabsim" | "NotAsLearned"
    | "Refused" | "everySchedule" | "explore" | "record">>,
];

export const record: typeof declared.record = recording.record;
export const explore: typeof declared.explore = exploring.explore;
export const everySchedule: typeof declared.everySchedule = every.everySchedule;
export const sameEverySchedule: typeof every.everySchedule = declared.everySchedule;
export const sameExplore: typeof exploring.explore = declared.explore;
export const testAgents: typeof declaredTesting.testAgents = writtenTesting.testAgents;
export const sameTestAgents: typeof writtenTesting.testAgents = declaredTesting.testAgents;
export const assertAgents: typeof declaredTesting.assertAgents = writtenTesting.assertAgents;
export const sameAssertAgents: typeof writtenTesting.assertAgents = declaredTesting.assertAgents;
export const testObject: typeof declaredTesting.testObject = writtenTesting.testObject;
export const sameTestObject: typeof writtenTesting.testObject = declaredTesting.testObject;
export const assertObject: typeof declaredTesting.assertObject = writtenTesting.assertObject;
export const sameAssertObject: typeof writtenTesting.assertObject = declaredTesting.assertObject;
export const testProgram: typeof declaredTesting.testProgram = writtenTesting.testProgram;
export const sameTestProgram: typeof writtenTesting.testProgram = declaredTesting.testProgram;
export const assertProgram: typeof declaredTesting.assertProgram = writtenTesting.assertProgram;
export const sameAssertProgram: typeof writtenTesting.assertProgram = declaredTesting.assertProgram;
export const sameRecord: typeof recording.record = declared.record;
