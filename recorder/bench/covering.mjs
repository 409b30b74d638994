// Plants mistakes in what was learned of some modules, one at a time, and counts which of them real runs notice: those
// of 300 seeds, and those that `--all` makes if no seeds are given: 20 that are drawn, and those by schedules of the
// search in the wrong automata that go over each edge.
//
// node recorder/bench/covering.mjs [--mistakes N]

import { parseArgs } from "node:util";
import { fileURLToPath, pathToFileURL } from "node:url";
import { Agreement } from "../lib/every/agreement.mjs";
import { DRAWN_RUNS } from "../lib/every/covering-runs.mjs";
import { learnApart } from "../lib/every/learning/apart.mjs";
import { runOfWay } from "../lib/every/learning/run-of-way.mjs";
import { NotAsLearned } from "../lib/every/not-as-learned.mjs";
import { coveringWays } from "../lib/every/search/covering.mjs";
import { programOf } from "../lib/every/search/file.mjs";
import { Search } from "../lib/every/search/search.mjs";
import { everyOptions } from "../lib/library/every-schedule.mjs";
import { Random } from "../lib/memory/random.mjs";
import { Job } from "../lib/seeds/job.mjs";
import { isMain } from "./is-main.mjs";

/** @typedef {import("../lib/every/search/file.mjs").FileData} FileData */
/** @typedef {import("../lib/seeds/job.mjs").CheckedOutcome} CheckedOutcome */

const MODULES = [
  "examples/mutex-three-state.agents.mjs", "bench/pieces/clh-lock.mjs", "bench/pieces/ring-buffer.mjs",
  "bench/pieces/semaphore.mjs", "bench/pieces/ticket-lock.mjs", "bench/pieces/wait-notify.mjs",
];
const SEEDS = 300;
const LIMIT = 50_000;
const SEED = 7;

/** @param {Random} random @param {any[]} list @returns {any} one of its items */
const oneOf = (random, list) => list[random.below(list.length)];

/** @type {Record<string, (random: Random, nodes: any[], node: any) => void>} what is changed at a call */
const MISTAKES = {
  "an edge leads elsewhere": (random, nodes, { edges }) => {
    const edge = oneOf(random, edges);
    edge[1] = (edge[1] + 1 + random.below(nodes.length - 1)) % nodes.length;
  },
  "two edges are exchanged": (_random, _nodes, { edges }) => {
    const [one, other] = [edges[0], edges[edges.length - 1]];
    [one[1], other[1]] = [other[1], one[1]];
  },
  "a call has another operand": (_random, _nodes, { call }) => {
    const last = call.length - 1;
    call[last] = typeof call[last] === "string" ? `${BigInt(call[last]) + 1n}` : call[last] + 1;
  },
};

/**
 * @param {FileData} file of a right module
 * @param {Random} random
 * @returns {{ what: string, wrong: FileData }} with one mistake in it
 */
function planted(file, random) {
  for (;;) {
    const wrong = structuredClone(file);
    const what = oneOf(random, Object.keys(MISTAKES));
    const { nodes } = oneOf(random, wrong.automata);
    const calls = nodes.filter((/** @type {any} */ { call, edges = [] }) => call !== undefined && edges.length > 0);
    MISTAKES[what](random, nodes, oneOf(random, calls));
    if (JSON.stringify(wrong) !== JSON.stringify(file)) return { what, wrong };
  }
}

/**
 * @param {FileData} file
 * @param {CheckedOutcome[]} outcomes of real runs
 * @returns {boolean} whether one of them isn't as the automata have it
 */
function isNoticed(file, outcomes) {
  if (outcomes.some(({ divergence }) => divergence !== undefined)) return true;
  const agreement = new Agreement(programOf(file));
  try {
    for (const outcome of outcomes) agreement.needs(outcome);
    return false;
  } catch (problem) {
    if (problem instanceof NotAsLearned) return true;
    throw problem;
  }
}

/** Makes real runs of a module. */
class RealRuns {
  /** @param {string} module its path */
  constructor(module) {
    this.options = everyOptions({ module }, () => undefined);
  }

  /**
   * @param {Omit<import("../lib/run/outcome.mjs").WantedRun, "whole">[]} wanted
   * @param {boolean} everywhere
   * @returns {Promise<CheckedOutcome[]>}
   */
  async made(wanted, everywhere) {
    const job = new Job();
    /** @type {CheckedOutcome[]} */
    const outcomes = [];
    const how = { inTurn: true, everywhere, trace: true, checks: false, chosenTime: /** @type {const} */ ("anew") };
    try {
      await job.open({ ...this.options, ...how, sabsim: undefined });
      await job.run(wanted.map((each) => ({ ...each, whole: true, needsTrace: true })),
        (outcome) => void outcomes.push({ ...outcome }));
    } finally {
      await job.close();
    }
    return outcomes;
  }

  /** @param {number} count @param {boolean} everywhere */
  drawn(count, everywhere) {
    return this.made(Array.from({ length: count }, (_, at) => ({ seed: at + 1 })), everywhere);
  }

  /** @param {FileData} wrong @returns {Promise<CheckedOutcome[]>} of runs that go over each of its edges */
  covering(wrong) {
    const program = programOf(wrong);
    const search = new Search(program, { timeouts: "early", limit: LIMIT });
    search.run();
    if (!search.isClosed) return Promise.resolve([]);
    const ways = coveringWays(search, program.nodes, Array.from({ length: search.count }, (_, state) => state));
    const runs = ways.map(({ way, isWhole }) => ({ ...runOfWay(search.world, search.named(way).way), isWhole }));
    return this.made(runs.filter(({ spins }) => !spins).map(({ row, choices, isWhole }, at) =>
      ({ seed: DRAWN_RUNS + 1 + at, row, choices, isExact: isWhole })), true);
  }
}

/** @typedef {{ module: string, what: string, bySeeds: boolean, byCovering: boolean }} Noticed */

/**
 * @param {string} path of a module
 * @param {number} count of mistakes
 * @param {Random} random
 * @returns {Promise<Noticed[]>}
 */
async function noticedOf(path, count, random) {
  const module = fileURLToPath(new URL(`../${path}`, import.meta.url));
  const wanted = { module: pathToFileURL(module).href, args: [], place: {}, timeouts: /** @type {const} */ ("early") };
  const { file } = await learnApart({ ...wanted, limit: LIMIT, within: 600 }, { seconds: 60 });
  const real = new RealRuns(module);
  const seeds = await real.drawn(SEEDS, false);
  const few = await real.drawn(DRAWN_RUNS, true);
  const right = [...seeds, ...few, ...await real.covering(file)];
  if (isNoticed(file, right)) throw new Error(`the runs of ${path} differ from what was learned`);
  /** @type {Noticed[]} */
  const noticed = [];
  for (let at = 0; at < count; at += 1) {
    const { what, wrong } = planted(file, random);
    const byCovering = isNoticed(wrong, [...few, ...await real.covering(wrong)]);
    noticed.push({ module: path, what, bySeeds: isNoticed(wrong, seeds), byCovering });
  }
  return noticed;
}

/** @param {number} mistakes how many are planted @returns {Promise<Noticed[]>} */
export async function noticedMistakes(mistakes) {
  const random = new Random(new Int32Array(4));
  random.seed(SEED);
  /** @type {Noticed[]} */
  const noticed = [];
  for (const path of MODULES) noticed.push(...await noticedOf(path, Math.ceil(mistakes / MODULES.length), random));
  return noticed;
}

if (isMain(import.meta.url)) {
  const { values } = parseArgs({ options: { mistakes: { type: "string", default: "30" } } });
  const noticed = await noticedMistakes(Number(values.mistakes));
  for (const { module, what, bySeeds, byCovering } of noticed) {
    const [seeds, covering] = [bySeeds, byCovering].map((isIt) => (isIt ? "notice it" : "don't"));
    process.stdout.write(`${module}: ${what}: the seeds ${seeds}, the runs over each edge ${covering}\n`);
  }
  const bySeeds = noticed.filter((each) => each.bySeeds).length;
  const byCovering = noticed.filter((each) => each.byCovering).length;
  process.stdout.write(`of ${noticed.length} mistakes ${SEEDS} seeds notice ${bySeeds}, `
    + `and the runs over each edge ${byCovering}\n`);
}
