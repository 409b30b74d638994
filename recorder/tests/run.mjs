// Runs the tests of the recorder, as many files at a time as there are processors. `npm test` calls it.
//
// usage: node recorder/tests/run.mjs [NAME ..] [--all] [--unit] [--require-all]
//
// With words only the files whose names contain one of them are run; a name has its folder, as unit/nearest.test.mjs.
// Those of the folders fuzz and bench are run if a word names them, or with `--all`. `--unit` runs only those of the
// folder unit, which start no thread and no process. If SABSIM in the environment names the built program, it checks
// the runs, except with `--unit`. Without it the recorder is tested alone, with node and nothing else: the simulator's
// module checks the runs.
//
// The last line is `N passed, M failed`, and the status is 0 only if no test failed. The line before says which tests
// were left out, since this machine lacks something. Some tests watch threads by the clock. So if tests fail, their
// files run once more, one at a time, and that second run counts. A line names the tests that passed only then. With
// `--require-all` each test of these two lines counts as failed.

import { execFile } from "node:child_process";
import { existsSync, statSync } from "node:fs";
import { availableParallelism } from "node:os";
import { join, resolve } from "node:path";
import { fileURLToPath } from "node:url";
import { closingLines, readReport, wholeOf } from "./helpers/results.mjs";
import {
  Mistaken, REFUSAL, WITHOUT_OTHERS, askedBy, isUnitTest, keepSeconds,
} from "./helpers/test-files.mjs";

const FOLDER = fileURLToPath(new URL("./", import.meta.url));
const BUILT = fileURLToPath(new URL("../../crates/sabsim/out/sabsim", import.meta.url));

/**
 * The variable that names further certificates. Each node process that finds it set reads them when it starts, and
 * takes a tenth of a second for that. No test needs them.
 */
const CERTIFICATES = "NODE_EXTRA_CA_CERTS";

/** A file that prints nothing for longer is ended, and has failed. Each test prints something when it has ended. */
const MOST_MILLISECONDS = 40 * 60_000;

/** The status of a command line that asks for something that there isn't. */
const MISTAKEN = 2;

/** @typedef {import("./helpers/results.mjs").Result & { name: string, seconds: number }} FileResult */

/**
 * Whether a file may start no thread and no process.
 * @param {string} name
 * @param {Record<string, string | undefined>} env
 */
const startsNothing = (name, env) => isUnitTest(name) && env.SABSIM === undefined;

/**
 * Runs a file of tests.
 * @param {string} name
 * @param {Record<string, string | undefined>} env
 * @returns {Promise<FileResult>}
 */
function resultOf(name, env) {
  const begun = performance.now();
  // Without --test the file's own process writes the report, and no further process starts it.
  const words = [...(startsNothing(name, env) ? WITHOUT_OTHERS : []), "--test-reporter=tap", join(FOLDER, name)];
  return new Promise((done) => {
    const child = execFile(process.execPath, words, { env, maxBuffer: 2 ** 30 }, (error, stdout, stderr) => {
      clearTimeout(limit);
      const seconds = (performance.now() - begun) / 1_000;
      done({ name, seconds, ...readReport(stdout + stderr, error === null) });
    });
    const limit = setTimeout(() => child.kill("SIGKILL"), MOST_MILLISECONDS);
    child.stdout?.on("data", () => limit.refresh());
  });
}

/** @param {FileResult} result */
function printResult({ name, passed, failed, leftOut, problems, seconds }) {
  const counts = [`${passed} passed`];
  if (failed > 0) counts.push(`${failed} failed`);
  if (leftOut.length > 0) counts.push(`${leftOut.length} left out`);
  console.log(`${name}: ${counts.join(", ")}, ${seconds.toFixed(1)} s`);
  if (failed === 0) return;
  console.log(problems);
  if (isUnitTest(name) && problems.includes(REFUSAL)) {
    console.log(`${name} is in the folder unit, and starts a thread or a process`);
  }
}

/**
 * Runs files of tests, and prints each one's result when it has ended.
 * @param {string[]} names
 * @param {number} atOnce
 * @param {Record<string, string | undefined>} env
 */
async function resultsOf(names, atOnce, env) {
  /** @type {FileResult[]} */
  const results = [];
  const waiting = [...names];
  const work = async () => {
    for (let name = waiting.shift(); name !== undefined; name = waiting.shift()) {
      const result = await resultOf(name, env);
      results.push(result);
      printResult(result);
    }
  };
  await Promise.all(Array.from({ length: atOnce }, work));
  return results;
}

/**
 * Runs files, and those in which tests failed once more.
 * @param {string[]} names
 * @param {Record<string, string | undefined>} env
 */
async function finalResults(names, env) {
  const results = await resultsOf(names, availableParallelism(), env);
  const failing = results.filter(({ failed }) => failed > 0);
  if (failing.length === 0) return { results, second: [] };
  console.log("Tests failed. Their files run once more, one at a time:");
  const again = await resultsOf(failing.map(({ name }) => name), 1, env);
  /** @param {FileResult} first */
  const isWell = ({ name }) => again.some((result) => result.name === name && result.failed === 0);
  return { results: [...results.filter(({ failed }) => failed === 0), ...again], second: failing.filter(isWell) };
}

/** The built program that the environment names, by its whole path. */
function sabsimHere() {
  const { SABSIM: named = "" } = process.env;
  if (named === "") return undefined;
  if (statSync(named, { throwIfNoEntry: false })?.isFile()) return resolve(named);
  throw new Mistaken(`SABSIM is ${named}, which is no file: ./build makes crates/sabsim/out/sabsim`);
}

/** Prints what tests of the recorder alone leave out, and how to run all. */
function printLeftOut() {
  const how = existsSync(BUILT) ? "It is built, but SABSIM doesn't name it." : "`./build` builds it.";
  console.log(`The recorder was tested alone, with the simulator's module and not with the program. ${how}`);
  console.log("To test both together: SABSIM=crates/sabsim/out/sabsim npm test");
}

/** @param {string[]} words */
async function main(words) {
  const { names, isUnit, isNamed, requireAll } = askedBy(words);
  const sabsim = isUnit ? undefined : sabsimHere();
  const { results, second } = await finalResults(names, {
    ...process.env,
    [CERTIFICATES]: undefined,
    SABSIM: sabsim,
  });
  if (!isNamed && !isUnit) keepSeconds(results);
  const hasSabsim = sabsim !== undefined;
  if (!hasSabsim && !isUnit) printLeftOut();
  const whole = wholeOf(results, second, { hasSabsim, requireAll });
  for (const line of closingLines(whole)) console.log(line);
  process.exitCode = whole.failed === 0 ? 0 : 1;
}

try {
  await main(process.argv.slice(2));
} catch (error) {
  if (!(error instanceof Mistaken)) throw error;
  console.error(`tests: ${error.message}`);
  process.exitCode = MISTAKEN;
}
