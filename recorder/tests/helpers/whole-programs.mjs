// Runs of whole programs that tests write. Each outcome has all its parts, and the simulator checks it. The programs of
// a test's process are run in the same threads, one after the other, from files of the same folder.

import assert from "node:assert/strict";
import { mkdirSync, mkdtempSync, rmSync, writeFileSync } from "node:fs";
import { tmpdir } from "node:os";
import { dirname, join } from "node:path";
import { after } from "node:test";
import { pathToFileURL } from "node:url";
import { checkedBy } from "../../lib/check/check.mjs";
import { keepsGlobals } from "../../lib/seeds/first-again.mjs";
import { simulatorAt } from "../../lib/simulator/chosen.mjs";
import { temporaryFolder } from "./common.mjs";
import { programGroup } from "./groups.mjs";
import { CHECKER } from "./needs.mjs";

/** @typedef {import("../../lib/program/program-group.mjs").ProgramGroup} ProgramGroup */
/** @typedef {import("../../lib/run/group.mjs").GroupOptions} GroupOptions */
/** @typedef {import("../../lib/run/outcome.mjs").Outcome & import("../../lib/check/check.mjs").Check} Checked */

/** @param {Checked[]} outcomes @returns {string[]} how they end, each way once */
export const endingsOf = (outcomes) => [...new Set(outcomes.map(({ ending, detail }) => `${ending}: ${detail}`))];

/**
 * How main begins that shares `words` with a worker, which `started` starts.
 * @param {number} bytes how many the words take
 */
export const mainWith = (bytes) => `import { Worker } from "node:worker_threads";
const words = new Int32Array(new SharedArrayBuffer(${bytes}));
const started = (more) => new Worker(new URL("./worker.mjs", import.meta.url), { workerData: words, ...more });
`;

/** How the worker begins that gets these words. */
export const WORKER = 'import { parentPort, workerData as words } from "node:worker_threads";\n';

/**
 * Writes the files of a program.
 * @param {string} folder
 * @param {Record<string, string>} files by their names; the main one is `main.mjs` or `main.cjs`
 * @returns {string} the path of the main one
 */
export function programIn(folder, files) {
  for (const [name, text] of Object.entries(files)) {
    mkdirSync(dirname(join(folder, name)), { recursive: true });
    writeFileSync(join(folder, name), text);
  }
  return join(folder, Object.keys(files).find((name) => name.startsWith("main.")) ?? "main.mjs");
}

/**
 * Writes the files of a program into a folder of their own.
 * @param {import("node:test").TestContext} context
 * @param {Record<string, string>} files
 * @returns {string} the path of the main one
 */
export const programOf = (context, files) => programIn(temporaryFolder(context), files);

/** Threads with some options, in which programs are run. */
class Threads {
  #folder = mkdtempSync(join(tmpdir(), "recorder-"));
  #simulator = simulatorAt(CHECKER);

  /** @type {ProgramGroup | undefined} */
  #group;

  /** @type {Promise<unknown>} settled when no program is being run */
  #rest = Promise.resolve();

  /** @param {Partial<GroupOptions>} options */
  constructor(options) {
    this.options = options;
  }

  /**
   * @param {Record<string, string>} files
   * @param {{ seeds: number[], args: string[] }} how
   * @returns {Promise<Checked[]>}
   */
  runs(files, how) {
    const runs = this.#rest.then(() => this.#made(files, how));
    this.#rest = runs.catch(() => {});
    return runs;
  }

  async end() {
    await this.#group?.close();
    rmSync(this.#folder, { recursive: true, force: true });
  }

  /** @type {Threads["runs"]} */
  async #made(files, { seeds, args }) {
    rmSync(this.#folder, { recursive: true });
    const module = pathToFileURL(programIn(this.#folder, files)).href;
    this.#group ??= await programGroup({ module, ...this.options });
    this.#group.enter(module, args);
    /** @type {Checked[]} */
    const outcomes = [];
    const wanted = seeds.map((seed) => ({ seed, whole: true, needsTrace: true, isSilent: true }));
    await this.#group.run(wanted, (outcome, judgement, aside) => {
      const keeps = outcome.real === undefined ? keepsGlobals(outcome, aside.again) : undefined;
      if (keeps !== undefined) throw keeps;
      outcomes.push(checkedBy(this.#simulator, { outcome, judgement, aside }));
    });
    return outcomes;
  }
}

/** @type {Map<string, Threads>} by their options */
const all = new Map();
after(() => Promise.all([...all.values()].map((threads) => threads.end())));

/**
 * Runs a program.
 * @param {import("node:test").TestContext} _context
 * @param {Record<string, string>} files as `programIn` takes them
 * @param {{ seeds?: number[], args?: string[], options?: Partial<GroupOptions> }} how
 * @returns {Promise<Checked[]>} in the order of the seeds; fails where the simulator says something else
 */
export function runsOf(_context, files, { seeds = [1], args = [], options = {} } = {}) {
  const key = JSON.stringify(options);
  const threads = all.get(key) ?? new Threads(options);
  all.set(key, threads);
  return threads.runs(files, { seeds, args });
}

/**
 * Runs a program that finishes with each seed.
 * @type {typeof runsOf}
 */
export async function finishing(context, files, how) {
  const outcomes = await runsOf(context, files, how);
  assert.deepEqual(endingsOf(outcomes), ["finished: "]);
  return outcomes;
}

/**
 * Runs a program that races with each seed.
 * @param {Parameters<typeof runsOf>} given
 * @returns {Promise<string[][][]>} the lines of each run's races
 */
export async function racing(...given) {
  const outcomes = await runsOf(...given);
  assert.deepEqual([...new Set(outcomes.map(({ ending }) => ending))], ["race"]);
  return outcomes.map(({ races }) => races.map(({ lines }) => lines));
}
