// Uses every name of `sabsim/test`, as TypeScript of a project of one's own.

import { assertAgents, assertObject, assertProgram, testAgents, testObject, testProgram } from "sabsim/test";
import type { OfTrial, ProgramTrialOptions, TrialOptions, TrialRuns } from "sabsim/test";

const options: TrialOptions = { module: "./lock.mjs", args: ["counting"], seeds: "1..20", jobs: 2, out: "found" };

export const tested: Promise<void> = testAgents("no wake-up is lost", options);
export const asserted = (): Promise<void> => assertAgents({ ...options, sabsim: false });

export const testedObject: Promise<void> = testObject("each use is right", { module: "./q.mjs", all: true, each: 2 });
export const assertedObject = (): Promise<void> => assertObject({ module: "./q.mjs", each: "any", agents: 2 });

// @ts-expect-error: a test ends at the first failing run in any case
export const wrong: TrialOptions = { ...options, failFast: true };

const kept: OfTrial = { out: "found", shorten: false };
const runs: TrialRuns = { ...kept, seeds: 200 };
const program: ProgramTrialOptions = { program: "./main.mjs", ...runs };
export const testedProgram: Promise<void> = testProgram("no answer is lost", program);
export const assertedProgram = (): Promise<void> => assertProgram(program);

// @ts-expect-error: a program isn't a module of agents
export const other: Promise<void> = testAgents("no answer is lost", program);
