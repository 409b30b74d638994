// Uses every name that the package exports, as TypeScript of a project of one's own.

import {
  everySchedule, explore, record, Difference, KeepsGlobals, LostJob, NoSabsim, NotAsLearned, Refused,
} from "sabsim";
import type { Accesses, Agent, AgentRun, Choice, Ending, ExploreOptions, Outcome, Race, RaceSide } from "sabsim";
import type { Kind, NamedPart, NamedPlace, OnlyByTime, RecordOptions, Setup, Shortened, Standing } from "sabsim";
import type { EveryOptions, EverySchedule, FoundBySchedule, OfEvery } from "sabsim";
import { blocked } from "sabsim/object";
import type { ObjectMaker, Operation, OperationArguments, Operations } from "sabsim/object";
import type { TriedUses, UseSize } from "sabsim";
import type { ManyRuns, MemoryWindow, OfModule, OfProgram, OneRun, RunOptions, Summary, WithBuffers } from "sabsim";

const kind: Kind = "Uint8";
const slots: NamedPlace = [kind, 1];
const part: NamedPart = { kind: "Float64", buffer: 1, offset: 8, length: 1 };
const names: Setup["names"] = { LOCK: 0, slots, part, one: [kind, 1, 0] };
export const setup: Setup = { agents: 2, buffers: [8, 16], noBlock: [1], names };

export const agent: Agent = ({ buffers, agent, agents, args }: AgentRun) => {
  const words = new Int32Array(buffers[0]!);
  Atomics.store(words, agent % 2, agents + args.length);
};

export const choosing: Agent = ({ buffers: [buffer], again, choose }) => {
  while (again()) Atomics.add(new Int32Array(buffer!), choose(2), 1);
};

const choiceText = ([does, ...numbers]: Choice): string => `${does} ${numbers.join()}`;
export const choicesText = ({ choices = [] }: Outcome): string => choices.flat().map(choiceText).join();

class Box {
  put(value: number): boolean {
    return value > 0;
  }
}
export const object: ObjectMaker<Box> = ({ buffers }) => (buffers.length > 0 ? new Box() : new Box());
const arrays: OperationArguments = [[1]];
const taken: Operation<Box> = { args: [arrays], run: (box, value) => box.put(value), after: "put", agents: [0] };
const often: Operation = { after: ["put", "taken"], mayFail: undefined };
export const operations: Operations<Box> = { put: [1, 2], taken, often };
export class Model {
  put(value: number): boolean | typeof blocked {
    return value > 0 ? true : blocked;
  }
}
const sizes = ({ finished, size, next }: TriedUses): UseSize[] => [...finished, size, next];
export const sizesText = (uses: TriedUses): string => sizes(uses).map(({ agents, each }) => `${agents} ${each}`).join();

// @ts-expect-error: an agent must be synchronous
export const late: Agent = async ({ buffers }) => void Atomics.load(new Int32Array(buffers[0]!), 0);

const filled: WithBuffers = ([buffer], { agents, args }) => {
  new Uint8Array(buffer!).fill(agents + args.length);
};

const options: RunOptions & OneRun & OfModule = {
  module: "./lock.mjs", agents: 2, buffers: [8], noBlock: [0], seed: 7, args: ["counting"], strategy: "switch:0.5",
  timeouts: 0.1, maxMoves: 1_000, seconds: 2, ordinary: "watch", races: "allow", limits: "fail", clock: "run",
  unrecorded: "fail", init: filled, check: ([buffer]) => buffer!.byteLength === 8, sabsim: false, trace: true,
  shorten: true, rounds: 3,
};

const { seed, shorten, ...rest } = options;
export const seeds = { ...rest, seeds: "1..20", jobs: 1, checkEvery: 5, fresh: false, failFast: true };
const range = { first: 1, last: seed ?? 2 };
export const many: ExploreOptions[] = [seeds, { ...rest, seeds: 20 }, { ...rest, seeds: range, timeouts: "never" }];

const program: OfProgram = {
  program: "./main.mjs", stuck: "allow", web: true, programOutput: "none", wasmAccesses: "relaxed",
};
const few: ManyRuns = { seeds: 5 };
export const ofProgram: RecordOptions = { ...program, args: ["fast"], seed: 3, trace: true, everywhere: true };
export const manyOfProgram: ExploreOptions = { ...program, ...few };

// @ts-expect-error: there can't be a program beside a module of agents
const two: RecordOptions = { module: "./lock.mjs", program: "./main.mjs" };
// @ts-expect-error: what has many seeds has no one
export const both: ExploreOptions = { module: "./lock.mjs", seed: 7 };
// @ts-expect-error: the module must be given
const without: RecordOptions = { seed: 7 };
// @ts-expect-error: there is no such word
const wrong: RecordOptions = { module: "./lock.mjs", races: "ignore" };

const sideText = ({ agent, access, atomic, block, byte, size, element, call, source }: RaceSide): string =>
  [agent, access, atomic ? "atomic" : "ordinary", block, byte, size, element, call, source ?? "unknown"].join(" ");

const raceText = ({ lines, text, sides: [first, second] }: Race): string =>
  [...lines, text, sideText(first), sideText(second)].join("\n");

const shortening = ({ runs, changes, calls, stopped = "", unchanged = "" }: Shortened): string =>
  [runs, changes.before - changes.after, calls.before - calls.after, stopped, unchanged, shorten].join(" ");

export const failureText = ({ failed, runs, firstFailing }: Summary): string =>
  `${failed} of ${runs}: ${firstFailing?.detail.join() ?? "none"}`;

const waitText = ({ agent, line, milliseconds, block, byte }: OnlyByTime): string =>
  [agent, line ?? "unknown", milliseconds, block, byte].join(" ");

const standingText = ({ agent, does, call, place, block, byte, file, line, column }: Standing): string =>
  [agent, does === "waits", call ?? "none", place ?? "unnamed", block, byte, file ?? "unknown", line, column].join(" ");

const windowText = ({ buffer, name, from, to, block, byte }: MemoryWindow): string =>
  [buffer, name, from, to, block, byte].join(" ");

const accessText = ({ arrays, made }: Accesses): string => [
  ...arrays.map(({ name, kind, block, offset, length }) => `${name} ${kind} ${block} ${offset} ${length}`),
  ...made.map(([event, array, value]) => `${event} ${array} ${value ?? "none"}`),
].join(" ");

function summary(outcome: Outcome): string {
  const ending: Ending = outcome.ending;
  const { seed, fails, detail, moves, calls, ordinary, progress, state, races } = outcome;
  const numbers = [seed, moves, calls, ordinary, ...progress.map(({ returned, calls }) => calls - returned)];
  const texts = [ending, String(fails), detail, state.hash, ...state.shown, ...races.map(raceText)];
  const { bytes = [], answers = [], script, scriptHolds = "all", noScript = "", report = "", trace = "" } = outcome;
  const { onlyIf = "", onlyByTime = [], served = [], standing = [], unrecorded = [], remembers } = outcome;
  const accesses = outcome.accesses === undefined ? "" : accessText(outcome.accesses);
  const timed = [accesses, onlyIf, ...onlyByTime.map(waitText), ...served.map(({ block, byte }) => `${block} ${byte}`)];
  const answered = [...timed, ...answers.flat().map((answer) => answer ?? "waits")];
  const stands = standing.map(standingText);
  const tasks = (outcome.tasks ?? [])
    .map(({ event, agent, text, source }) => `${event} ${agent} ${text} ${source ?? "unknown"}`);
  return [...numbers, ...texts, ...bytes, ...answered, ...stands, script?.length, scriptHolds, noScript, report, trace,
    ...unrecorded, ...tasks, ...(outcome.threads ?? []), ...(outcome.windows ?? []).map(windowText), remembers?.seed,
    remembers?.differs, remembers?.was, remembers?.is, remembers?.threw].join(" ");
}

export async function reported(): Promise<string> {
  try {
    const outcome: Outcome = await record(options);
    const shortened = outcome.shortened === undefined ? "" : shortening(outcome.shortened);
    const checked = outcome.checked ? "checked" : outcome.unchecked ?? "";
    return `${summary(outcome)} ${shortened} ${outcome.original?.seed} ${outcome.row} ${checked}`;
  } catch (problem) {
    if (problem instanceof Difference) return `${problem.message} ${problem.replayed} ${problem.outcome.seed}`;
    if (problem instanceof Refused || problem instanceof NoSabsim) return problem.message;
    throw problem;
  }
}

export async function lowest(): Promise<number | undefined> {
  try {
    for await (const { seed, fails } of explore(seeds)) if (fails) return seed;
  } catch (problem) {
    if (!(problem instanceof LostJob || problem instanceof KeepsGlobals)) throw problem;
  }
  return undefined;
}

export const refused: RecordOptions[] = [without, wrong, two];

const bounds: OfEvery = { within: 5, states: 1_000 };
const every: EveryOptions = { module: "./lock.mjs", agents: 2, ...bounds };
export const whatIsFound = async (): Promise<FoundBySchedule[]> => {
  const tried: EverySchedule = await everySchedule(every);
  return tried.closed ? tried.found : [];
};
export const isFromRunToRun = (problem: unknown): boolean => problem instanceof NotAsLearned;
