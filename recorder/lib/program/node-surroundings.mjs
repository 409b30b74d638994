// What a program's thread finds if it is one of node: a command line, node's modules, and ports with node's methods.
// The file `web/surroundings.mjs` has the same for a program of browsers.

import process from "node:process";
import threads from "node:worker_threads";
import { member, showEngineTexts } from "../agent/ordinary/patch.mjs";
import { defineProperty } from "../primordials.mjs";
import { HERE } from "../processes/platform.cjs";
import { broadcastClass } from "./ports/broadcast.mjs";
import { Ends } from "./workers/ends.mjs";
import { installThreads } from "./thread/install.mjs";
import { lockManager } from "./locks/locks.mjs";
import { received } from "./ports/message-values.mjs";
import { NodePorts, servePorts } from "./ports/port-events.mjs";
import { KIND, channelClass, receiverOf } from "./ports/ports.mjs";
import { envOf, ignoringCase } from "./workers/process-env.mjs";
import { ProgramModules } from "./modules/program-modules.mjs";
import { argvOf, evaluatedProgram } from "./modules/start.mjs";
import { beginStdio, clearStdio } from "./workers/stdio.mjs";
import { workerClass } from "./workers/workers.mjs";

/** The program is no test that a runner of tests has started, also if the recorder is one. */
const { NODE_TEST_CONTEXT: _, ...firstEnv } = process.env;

/** @typedef {import("./thread/thread-services.mjs").ThreadServices} ThreadServices */
/** @typedef {import("./thread/thread-services.mjs").Surroundings} Surroundings */

/** @param {ThreadServices} parts of a thread @param {ProgramModules} graph */
function install({ locks, ends }, graph) {
  graph.tests.onFailed = (failed) => ends.testFailed(failed);
  showEngineTexts();
  // Later versions of node have locks between threads.
  if (!("locks" in threads)) return;
  const { manager } = lockManager(locks);
  member(threads, "locks", manager);
  const { Navigator: { prototype } } = /** @type {any} */ (globalThis);
  defineProperty(prototype, "locks", { configurable: true, enumerable: true, get: () => manager });
}

/**
 * Gives the thread's code what it is in a run.
 * @param {ThreadServices} parts
 * @param {import("./workers/workers.mjs").WorkerStart} start
 * @param {any} parentPort null in the first thread
 */
function begin(parts, start, parentPort) {
  const { moves, ports, control, buffers, refuse } = parts;
  const { agent } = moves;
  /** @type {any} */
  const given = { workerData: start.workerData, environment: start.environment };
  const { workerData, environment } = received(given, buffers);
  const values = HERE.ignoresCase && agent === 0 ? ignoringCase(start.env) : start.env;
  const env = envOf(values, start.sharesEnv, refuse);
  const { execArgv, resourceLimits, threadName } = start;
  const place = { agent, workerData, parentPort, argv: argvOf(start), execArgv, env, environment };
  installThreads({ ...place, threadName, resourceLimits }, {
    Worker: workerClass({ ...parts, environment }), MessageChannel: channelClass(ports),
    receiveMessageOnPort: receiverOf(ports),
    BroadcastChannel: broadcastClass({ ports, moves, control, buffers }),
  });
  if (agent === 0) return;
  beginStdio(ports, start.stdio);
  ports.send(parentPort, undefined, [], undefined, KIND.ONLINE);
}

/** @type {Surroundings} */
export const NODE = {
  Graph: ProgramModules,
  hasPhases: true,
  Ends,
  Ports: NodePorts,
  atomics: () => Atomics,
  serve: servePorts,
  install,
  mainStart: ({ program, args }) => ({
    url: program, isCode: false, workerData: null, argv: args, execArgv: [], env: { ...firstEnv }, sharesEnv: false,
    environment: new Map(), threadName: "", resourceLimits: {}, where: "",
  }),
  begin,
  evaluated: evaluatedProgram,
  clear: clearStdio,
};
