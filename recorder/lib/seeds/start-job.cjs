// Starts the process of a job, which then waits for its work. This is a CommonJS module, since such a one is loaded
// sooner.
"use strict";

const { fork } = require("node:child_process");
const { fileURLToPath, pathToFileURL } = require("node:url");
const { FIRST_THREADS, firstWorkers } = require("../processes/first-workers.cjs");
const { HERE } = require("../processes/platform.cjs");
const { GRAPH_FLAGS } = require("../program/node/graph-flags.cjs");

const own = pathToFileURL(__filename);
const PROGRAM = fileURLToPath(new URL("../processes/own-process.cjs", own));
const MODULE = new URL("./job-process.mjs", own).href;
const REFEREE = new URL("../run/referee.mjs", own).href;
const AGENT = new URL("../agent/agent-worker.mjs", own).href;
const THREADS = [new URL("../program/program-worker.mjs", own).href, String(FIRST_THREADS), ...GRAPH_FLAGS];

// The words by which node's command line itself has the program, and those that say what kind it is.
const EVALUATED = /^(-[ep]+|--eval|--print|--input-type)$/;

// How this one process is debugged.
const DEBUGGING = /^--(inspect|debug-port)/;
const PORT = /^--(inspect|debug)-port$/;

/**
 * The words of node's own command line that the process of a job gets too. So what they load before the program, as by
 * --require or --import, is there for the agents of each job.
 * @param {string[]} words that this process got
 * @returns {string[]} those that the process of a job gets
 */
function jobWords(words) {
  const kept = [];
  for (let at = 0; at < words.length; at += 1) {
    const [name, value] = words[at].split("=", 2);
    if (!EVALUATED.test(name) && !DEBUGGING.test(name)) kept.push(words[at]);
    else if (value === undefined && (EVALUATED.test(name) || PORT.test(name))) at += 1;
  }
  return kept;
}

/**
 * @typedef {object} ExpectedRuns what is known of the runs, so that no more workers begin than are needed
 * @property {unknown} [program] that is run, if it is one: its workers begin in another way
 * @property {number} [agents] how many; undefined: the module says it
 * @property {boolean} [everywhere] whether no pilots are made
 */

/**
 * @param {ExpectedRuns} [known]
 * @param {import("../processes/platform.cjs").Platform} platform
 * @returns {import("node:child_process").ChildProcess} which leads a group of processes, where there are groups. On
 *   Windows a detached process would have no console
 */
function startJob(known = {}, { hasGroups } = HERE) {
  const stdio = ["ignore", "inherit", "inherit", "ipc"];
  const execArgv = jobWords(process.execArgv);
  const workers = known.program === undefined ? [AGENT, String(firstWorkers(known))] : THREADS;
  const how = { serialization: /** @type {const} */ ("advanced"), detached: hasGroups, windowsHide: true };
  return fork(PROGRAM, [MODULE, REFEREE, ...workers], { stdio, execArgv, ...how });
}

module.exports = { jobWords, startJob };
