// Jobs: they run as this process would, what ends them doesn't end what was found, and they are ended themselves.

import assert from "node:assert/strict";
import { spawn } from "node:child_process";
import { readFileSync, writeFileSync } from "node:fs";
import { randomUUID } from "node:crypto";
import { syncBuiltinESMExports } from "node:module";
import os, { availableParallelism } from "node:os";
import { join } from "node:path";
import { test } from "node:test";
import { setTimeout as sleep } from "node:timers/promises";
import { pathToFileURL } from "node:url";
import { Delivery } from "../../lib/seeds/delivery.mjs";
import { Runs, outcomesOf } from "../../lib/seeds/runs.mjs";
import { isWorthIt, moreJobs } from "../../lib/seeds/more-jobs.mjs";
import { jobWords } from "../../lib/seeds/start-job.cjs";
import { commandHere } from "../helpers/command-here.mjs";
import {
  RECORD, agentsIn, agentsPath, moduleOf, nodeNow, processesWith, stayingWith, temporaryFolder,
} from "../helpers/common.mjs";
import { CHECKING, onLinux, withSignals } from "../helpers/needs.mjs";
import { endOf } from "../helpers/programs.mjs";

/**
 * Runs the command line to its end.
 * @param {string[]} words
 * @param {string[]} [nodeWords] for node itself
 * @param {object} [options] of spawnSync
 */
const run = (words, nodeWords = [], options = {}) => nodeNow([...nodeWords, RECORD, ...words], options);

/** The words for two agents, without pilots, which would take twice as many workers, and could end a job before. */
const small = (folder, body) =>
  [agentsIn(folder, body), "--agents", "2", "--buffers", "8", "--check", "0", "--everywhere"];

test("a job gets node's own words, but not those about the program and how it is debugged", () => {
  const loads = ["--require", "pre.cjs", "-r", "other.cjs", "--import=./pre.mjs", "--stack-size=2000", "--no-warnings"];
  assert.deepEqual(jobWords(loads), loads);
  const own = [
    ["--inspect"], ["--inspect=0"], ["--inspect-brk=127.0.0.1:9229"], ["--inspect-port", "9230"], ["--inspect-port=1"],
    ["-e", "code()"], ["--eval", "code()"], ["--eval=code()"], ["-p", "code()"], ["-pe", "code()"], ["--print=code()"],
    ["--print", "code()"], ["--input-type", "module"], ["--input-type=module"],
  ];
  for (const words of own) {
    assert.deepEqual(jobWords(words), [], words.join(" "));
    assert.deepEqual(jobWords(["-r", "a", ...words, "--import", "b"]), ["-r", "a", "--import", "b"], words.join(" "));
  }
});

test("files of --require and --import are loaded for agents too, whatever the number of jobs", (context) => {
  const folder = temporaryFolder(context);
  writeFileSync(join(folder, "pre.cjs"), "globalThis.fromRequire = 1;\n");
  writeFileSync(join(folder, "pre.mjs"), "globalThis.fromImport = 2;\n");
  const words = small(folder, `
    Atomics.add(new Int32Array(buffers[0]), 0, fromRequire + fromImport);
  `);
  const nodeWords = ["--require", join(folder, "pre.cjs"), "--import", pathToFileURL(join(folder, "pre.mjs")).href];
  const [one, two] = ["1", "2"].map((jobs) => run([...words, "--seeds", "1..20", "--jobs", jobs], nodeWords));
  assert.equal(one.status, 0, one.stdout);
  assert.match(one.stdout, /^20 runs: 20 finished\n1 final state: .*\n {2}20 runs .*: 0600000000000000$/m);
  assert.deepEqual(two, one);
});

test("a command ends when all is written, whatever else would keep its process", (context) => {
  const folder = temporaryFolder(context);
  writeFileSync(join(folder, "pre.cjs"), "if (process.send === undefined) setInterval(() => {}, 1_000);\n");
  const words = small(folder, "Atomics.add(new Int32Array(buffers[0]), 0, 1);");
  const { status, stdout } = run([...words, "--seeds", "1"], ["-r", join(folder, "pre.cjs")], { timeout: 120_000 });
  assert.equal(status, 0);
  assert.match(stdout, /^ {2}1 run finished, seed 1 the first: 0200000000000000$/m);
});

// What several jobs print is compared with what one job prints that is in this process.
test("one job and several print the same", async () => {
  const words = [agentsPath("naive-mutex"), "--seeds", "1..80", ...CHECKING];
  const one = await commandHere([...words, "--jobs", "1"]);
  assert.equal(one.status, 1);
  assert.deepEqual(run([...words, "--jobs", "3"]), one);
});

test("without --jobs a command that goes on takes further jobs, and prints the same as one", onLinux, async () => {
  const words = [RECORD, agentsPath("naive-mutex"), "--seeds", "1..800", "--check", "10", ...CHECKING];
  const mark = randomUUID();
  const child = spawn(process.execPath, words, { env: { ...process.env, RECORDER_TEST: mark } });
  let most = 0;
  const counting = setInterval(() => {
    most = Math.max(most, processesWith(mark).length);
  }, 50);
  const { status, stdout } = await endOf(child);
  clearInterval(counting);
  const { stderr, ...one } = await commandHere([...words.slice(1), "--jobs", "1"]);
  assert.deepEqual({ status, stdout }, one);
  // Besides the command itself there is a process for each job. Whether one is added depends on what else is running.
  assert.ok(most >= 2 && most <= 1 + availableParallelism(), `${most} processes`);
  assert.deepEqual(await stayingWith(mark), []);
});

/** So many outcomes are taken when there is a further job, so that some come from it. */
const SINCE = 100;

test("further jobs are taken while processors are idle, and the outcomes are those of one job", async (context) => {
  // Runs of some milliseconds each, on a machine of three processors that nobody else uses.
  const module = pathToFileURL(agentsIn(temporaryFolder(context), `
    for (let step = 0; step < 1_000_000; step += 1);
    Atomics.add(new Int32Array(buffers[0]), 0, agent + Math.floor(Math.random() * 100));
  `)).href;
  const { availableParallelism: parallelism, cpus } = os;
  context.after(() => {
    Object.assign(os, { availableParallelism: parallelism, cpus });
    syncBuiltinESMExports();
  });
  const idle = () => 2 * performance.now();
  Object.assign(os, { availableParallelism: () => 3, cpus: () => [{ times: { idle: idle() } }] });
  syncBuiltinESMExports();
  const taken = async (options) => {
    const group = { module, args: [], agents: 2, buffers: [4], everywhere: true };
    const all = { ...group, maxMoves: 100, seconds: 10, fresh: false, checkEvery: 0 };
    const runs = new Runs({ ...all, first: 1, ...options });
    const outcomes = [];
    let since = 0;
    for await (const outcome of outcomesOf(runs)) {
      outcomes.push(outcome);
      if (runs.jobs.length > 1) since += 1;
      if (since === SINCE) break;
    }
    return { outcomes, jobs: runs.jobs.length };
  };
  const one = await taken({ jobs: 1, last: 100 });
  assert.equal(one.jobs, 1);
  // On a busy machine a job opens slowly, so it is worth it only if many runs are left.
  const { jobs, outcomes } = await taken({ last: 10_000 });
  assert.ok(jobs > 1 && jobs <= 3, `${jobs} jobs`);
  assert.deepEqual(outcomes.map(({ seed }) => seed), outcomes.map((_, at) => at + 1));
  assert.deepEqual(outcomes.slice(0, 100), one.outcomes);
});

test("a first job that takes long to open brings no warning, and further ones are looked for at once", async () => {
  /** @type {string[]} */
  const warnings = [];
  const note = (/** @type {Error} */ { message }) => warnings.push(message);
  process.on("warning", note);
  // The pauses alone keep no process alive.
  const awake = setInterval(() => {}, 1_000);
  let asked = 0;
  const progress = () => ({ jobs: 1, made: (asked += 1), left: asked < 3 ? 1_000_000 : 0 });
  for await (const _ of moreJobs(sleep(1_050), progress, new AbortController().signal)) assert.ok(true);
  clearInterval(awake);
  process.off("warning", note);
  assert.ok(asked >= 3);
  assert.deepEqual(warnings, []);
});

test("a further job is worth it if a processor is idle, and the runs would go on for longer than it takes", () => {
  const seen = { milliseconds: 200, idle: 400, made: 100 };
  // 1,000 runs go on for two seconds.
  assert.equal(isWorthIt(seen, 1_000, 500), true);
  assert.equal(isWorthIt(seen, 1_000, 1_000), false);
  assert.equal(isWorthIt({ ...seen, idle: 99 }, 1_000, 500), false);
  assert.equal(isWorthIt(seen, 0, 500), false);
  // Runs that take long are worth it as soon as there is one more of them.
  assert.equal(isWorthIt({ ...seen, made: 0 }, 1, 500), true);
});

test("with --fail-fast the first failing run is the last, whatever the number of jobs", async () => {
  // Without pilots, which would take twice as many workers: the seeds are given out in the same way.
  const alike = ["--agents", "3", "--everywhere"];
  const words = [agentsPath("naive-mutex"), "--seeds", "1..1000000", "--check", "7", ...alike, ...CHECKING];
  const one = await commandHere([...words, "--fail-fast", "--jobs", "1"]);
  assert.equal(one.status, 1);
  assert.deepEqual(run([...words, "--fail-fast", "--jobs", "3"]), one);
  const first = /^1 of ([\d,]+) runs failed: 1 deadlock; [\d,]+ finished\nfirst failing seed: (\d+), /;
  const [, runs, seed] = first.exec(one.stdout);
  assert.equal(runs.replaceAll(",", ""), seed);
  // Of the seeds 1, 8, 15, .. each is checked, and the last one, since it failed.
  const checked = Math.ceil(Number(seed) / 7) + ((Number(seed) - 1) % 7 === 0 ? 0 : 1);
  assert.match(one.stdout, new RegExp(`^${checked} of [\\d,]+ runs were replayed and judged by the simulator `, "m"));
});

/**
 * The outcomes that are taken, up to the first that fails, where they come in some order: those of seeds that fail are
 * negative, and those that are lost are texts. After the last one there is a failure.
 */
async function takenOf(arrivals) {
  const delivery = new Delivery(1);
  const taken = [];
  const isLast = ({ seed, fails }) => {
    taken.push(seed);
    return fails;
  };
  const taking = (async () => {
    for (let next = await delivery.take(); next !== undefined; next = await delivery.take()) if (isLast(next)) return;
  })();
  for (const arrival of arrivals) {
    if (typeof arrival === "string") delivery.lose(Number(arrival));
    else delivery.add({ seed: Math.abs(arrival), fails: arrival < 0 });
    await sleep(1);
  }
  delivery.fail(new Error("no more"));
  const stopped = await taking.then(() => false, () => true);
  if (stopped) for (const outcome of delivery.left()) if (isLast(outcome)) break;
  return taken;
}

test("outcomes that come in any order are taken in the order of their seeds, up to the first that fails", async () => {
  assert.deepEqual(await takenOf([1, 2, 3]), [1, 2, 3]);
  assert.deepEqual(await takenOf([3, 1, 2]), [1, 2, 3]);
  assert.deepEqual(await takenOf([4, -3, 1, 2, 5]), [1, 2, 3]);
  assert.deepEqual(await takenOf([-2, -1, 3]), [1]);
  // If seed 2 is lost, the others are taken at once; if nothing comes of it, they are left.
  assert.deepEqual(await takenOf([1, 3, "2", 4]), [1, 3, 4]);
  assert.deepEqual(await takenOf([5, 1, -4, 3]), [1, 3, 4]);
});

test("a job whose process dies is reported by status 3, and the summary has other runs", withSignals, (context) => {
  const words = small(temporaryFolder(context), `
    const words = new Int32Array(buffers[0]);
    globalThis.seeds = (globalThis.seeds ?? 0) + 1;
    Atomics.add(words, 0, 1);
    if (globalThis.seeds === 5 && agent === 1) {
      // Meanwhile the fourth run is handed on.
      execSync("sleep 1");
      process.kill(process.pid, "SIGKILL");
    }
  `);
  const [module] = words;
  writeFileSync(module, `import { execSync } from "node:child_process";\n${readFileSync(module, "utf8")}`);
  const { status, stdout, stderr } = run([...words, "--seeds", "1..10"]);
  assert.equal(status, 3);
  // The summary doesn't count the fifth run.
  assert.match(stdout, /^stopped after 4 of 10 runs\n4 runs: 4 finished\n/);
  assert.equal(
    stderr, "record: a job's process ended by itself (SIGKILL), and nothing is known of the seeds 5 to 10\n",
  );
});

test("a failed run is reported even if the next run kills the job's process at once", withSignals, (context) => {
  const words = small(temporaryFolder(context), `
    globalThis.times = (globalThis.times ?? 0) + 1;
    if (globalThis.times === 8) process.kill(process.pid, "SIGKILL");
    new Int32Array(buffers[0])[0] = agent;
  `);
  const { status, stdout } = run([...words, "--seeds", "1..10"]);
  assert.equal(status, 3);
  // The first one is made twice, for the lines of its accesses.
  assert.match(stdout, /^stopped after 6 of 10 runs\n6 of 6 runs failed: 6 race\n/);
});

test("if one job of several is killed, the others go on", onLinux, async (context) => {
  const mark = randomUUID();
  const words = small(temporaryFolder(context), `
    Atomics.add(new Int32Array(buffers[0]), 0, 1);
    if (agent === 0) console.error("a run");
  `);
  const env = { ...process.env, RECORDER_TEST: mark };
  const all = [RECORD, ...words, "--seeds", "1..500", "--jobs", "3"];
  const child = spawn(process.execPath, all, { env, stdio: ["ignore", "pipe", "pipe"] });
  const ended = endOf(child);
  child.stderr.once("data", () => {
    const job = processesWith(mark).find((id) => Number(id) !== child.pid);
    process.kill(Number(job), "SIGKILL");
  });
  const { status, stdout, stderr } = await ended;
  assert.equal(status, 3);
  const [, runs] = /^stopped after (\d+) of 500 runs\n\1 runs: \1 finished\n/.exec(stdout);
  const made = Number(runs);
  // A job is given 16 seeds at a time at most.
  assert.ok(made >= 500 - 16 && made < 500, runs);
  assert.match(stderr, /^record: a job's process ended by itself \(SIGKILL\), and nothing is known of /m);
  assert.deepEqual(await stayingWith(mark), []);
});

test("a call of native code that takes long holds nothing, nor does what it has started", onLinux, async (context) => {
  const mark = randomUUID();
  const module = moduleOf(context, `import { execSync } from "node:child_process";
    export default function agent({ buffers, agent }) {
      Atomics.add(new Int32Array(buffers[0]), 0, 1);
      if (agent === 1) execSync("sleep 600");
    }`);
  const words = [module, "--agents", "2", "--buffers", "4", "--check", "0", "--seeds", "1", "--seconds", "1"];
  const begun = performance.now();
  const { status, stdout } = run(words, [], { env: { ...process.env, RECORDER_TEST: mark } });
  const took = performance.now() - begun;
  assert.equal(status, 1);
  assert.match(stdout, /^1 of 1 run failed: 1 limit met\n/);
  // If anything held it, that would be for ten minutes.
  assert.ok(took < 600_000, `it took ${took} ms`);
  assert.deepEqual(await stayingWith(mark), []);
});
