// Uses `sabsim` and `sabsim/test` as TypeScript of a project of CommonJS.

import { assertAgents, assertObject, assertProgram, testAgents, testObject, testProgram } from "sabsim/test";
import { record } from "sabsim";
import type { Outcome } from "sabsim";
import type { TrialOptions } from "sabsim/test";

const options: TrialOptions = { module: "./lock.mjs", args: ["counting"], seeds: "1..20" };

export const tested: Promise<void>[] = [
  testAgents("agents", options), testObject("object", { module: "./queue.mjs" }),
  testProgram("program", { program: "./main.mjs" }),
];
export const asserted = (): Promise<void>[] => [
  assertAgents(options), assertObject({ module: "./queue.mjs", all: true }), assertProgram({ program: "./main.mjs" }),
];
export const recorded = (): Promise<Outcome> => record({ module: "./lock.mjs", seed: 3 });

// @ts-expect-error: a program isn't a module of agents
export const wrong = (): Promise<void> => assertAgents({ program: "./main.mjs" });
