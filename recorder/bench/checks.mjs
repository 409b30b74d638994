#!/usr/bin/env node
// What the checks cost: seeds a second with every run checked, beside those with none checked. The two take turns, so
// that other work on the machine slows both. The start isn't counted.
//
//     node recorder/bench/checks.mjs [--turns N] [--each N] [--jobs N,..] [--modules FILE,..]

import { availableParallelism } from "node:os";
import { resolve } from "node:path";
import { setTimeout as pause } from "node:timers/promises";
import { parseArgs } from "node:util";
import { fileURLToPath } from "node:url";
import { checkedOptions } from "../lib/library/library-options.mjs";
import { digits } from "../lib/run/words/summary-words.mjs";
import { Runs } from "../lib/seeds/runs.mjs";
import { BATCH } from "../lib/seeds/seed-queue.mjs";
import { isMain } from "./is-main.mjs";

const RECORDER = new URL("../", import.meta.url);

/** Whole numbers, ordinary data, and bytes that are written many at a time. */
const MODULES = ["examples/mutex-naive.agents.mjs", "examples/ring.agents.mjs", "tests/known/bulk-overlap.mjs"];

/** So many runs are made first: by then the engine has compiled all. */
const WARM = 1_000;

/**
 * @typedef {{ turns: number, each: number, warm?: number }} Amount how many turns, outcomes of each, and runs before
 */

/** Between turns no outcomes are taken. By the end of this pause all runs are made that are made ahead. */
const REST_MILLISECONDS = 100;

/** @param {string} module its path @returns {string} from the recorder's folder, if it is there */
function nameOf(module) {
  const folder = fileURLToPath(RECORDER);
  return module.startsWith(folder) ? module.slice(folder.length) : module;
}

/** @param {number[]} list @returns {number} */
const median = (list) => [...list].sort((one, other) => one - other)[Math.floor(list.length / 2)];

/** The runs of a module, each checked or none. */
class Course {
  /** @param {string} module its path @param {number} checkEvery @param {number} jobs */
  constructor(module, checkEvery, jobs) {
    const options = { ...checkedOptions({ module, limits: "allow" }, () => undefined), fresh: false, isBrief: true };
    this.ahead = jobs * BATCH;
    const many = { first: 1, last: Number.MAX_SAFE_INTEGER, jobs, checkEvery, ahead: this.ahead };
    const all = /** @type {import("../lib/seeds/runs.mjs").RunsOptions} */ ({ ...options, ...many });
    this.runs = new Runs(all);
    this.outcomes = this.runs.outcomes();
    /** @type {number[]} the milliseconds that each turn took */
    this.taken = [];
  }

  /** @param {number} count of outcomes that are taken */
  async take(count) {
    for (let taken = 0; taken < count; taken += 1) await this.outcomes.next();
  }

  /** @param {number} count of outcomes whose time counts */
  async turn(count) {
    await pause(REST_MILLISECONDS);
    // Those that were made ahead, and as many again.
    await this.take(2 * this.ahead);
    const begun = performance.now();
    await this.take(count);
    this.taken.push(performance.now() - begun);
  }
}

/**
 * @param {string} module its path
 * @param {number} jobs
 * @param {Amount} amount
 * @returns {Promise<{ unchecked: number, checked: number }>} seeds a second, by medians
 */
export async function measured(module, jobs, { turns, each, warm = WARM }) {
  const courses = [0, 1].map((checkEvery) => new Course(module, checkEvery, jobs));
  try {
    for (const course of courses) await course.take(warm);
    for (let turn = 0; turn < turns; turn += 1) {
      for (const course of turn % 2 === 0 ? courses : [...courses].reverse()) await course.turn(each);
    }
    const [unchecked, checked] = courses.map(({ taken }) => (1_000 * each) / median(taken));
    return { unchecked, checked };
  } finally {
    for (const { runs } of courses) await runs.close();
  }
}

/**
 * A row for each module and number of jobs.
 * @param {string[]} modules their paths
 * @param {number[]} jobs
 * @param {Amount} amount
 * @param {(line: string) => void} print
 */
export async function printTable(modules, jobs, amount, print) {
  print("| Program | Jobs | No run checked | Every run checked | Ratio |");
  print("|---|---:|---:|---:|---:|");
  for (const module of modules) {
    for (const count of jobs) {
      const { unchecked, checked } = await measured(module, count, amount);
      const runs = [unchecked, checked].map((each) => digits(Math.round(each)));
      print(`| \`${nameOf(module)}\` | ${count} | ${runs.join(" | ")} | ${(checked / unchecked).toFixed(2)} |`);
    }
  }
}

if (isMain(import.meta.url)) {
  const { turns, each, jobs, modules } = parseArgs({
    options: {
      turns: { type: "string", default: "15" },
      each: { type: "string", default: "200" },
      jobs: { type: "string", default: `1,${availableParallelism()}` },
      modules: { type: "string", default: MODULES.map((path) => fileURLToPath(new URL(path, RECORDER))).join(",") },
    },
  }).values;
  const amount = { turns: Number(turns), each: Number(each) };
  const paths = modules.split(",").map((/** @type {string} */ path) => resolve(path));
  await printTable(paths, jobs.split(",").map(Number), amount, (line) => process.stdout.write(`${line}\n`));
}
