// What a program's thread finds in place of node's own: threads, ports, timers, memory, process. What isn't simulated
// ends the run by its name and line.

import nodeModule from "node:module";
import net from "node:net";
import process from "node:process";
import threads from "node:worker_threads";
import { member, replaceClass, replaceNeeded } from "../../agent/ordinary/patch.mjs";
import { apply, copied, isArray } from "../../primordials.mjs";
import { nodeError } from "../node/node-error.mjs";
import { demandTransferable } from "../ports/transfer-list.mjs";
import { clonedValue, installMarks } from "../ports/message-values.mjs";

const { syncBuiltinESMExports } = nodeModule;
const { performance } = /** @type {any} */ (globalThis);

/**
 * Reports each shared buffer that the program makes.
 * @param {(buffer: SharedArrayBuffer) => void} made gets each one, also those that grow
 */
export const installMemory = (made) => replaceClass(globalThis, "SharedArrayBuffer", (make) => {
  const buffer = make();
  made(buffer);
  return buffer;
});

/** @param {import("../ports/ports.mjs").Ports} ports of the thread: clones may have them, and the same shared memory */
export function installCloning(ports) {
  installMarks();
  replaceNeeded(globalThis, "structuredClone", (engine) => (/** @type {any[]} */ ...given) => {
    if (given.length === 0) return apply(engine, undefined, given);
    const list = isArray(given[1]?.transfer) ? copied(given[1].transfer) : [];
    demandTransferable(list, ports.context.refuse);
    return clonedValue(given[0], given[1], ports, ports.among(list));
  });
}

/**
 * @typedef {object} ThreadIdentity what a thread is in its run
 * @property {number} agent
 * @property {unknown} workerData
 * @property {any} parentPort null in the first thread
 * @property {string[]} argv
 * @property {string[]} execArgv
 * @property {Record<string, number>} resourceLimits
 * @property {Record<string, string | undefined> | undefined} env
 * @property {Map<unknown, unknown>} environment
 * @property {string} threadName
 */

/**
 * Gives the thread's code what the thread is, and the classes by which it reaches other threads.
 * @param {ThreadIdentity} place
 * @param {Record<string, unknown>} classes of `worker_threads`
 */
export function installThreads(place, classes) {
  const { agent, workerData, parentPort, environment, threadName } = place;
  for (const [name, each] of Object.entries(classes)) member(threads, name, each);
  member(threads, "isMainThread", agent === 0);
  member(threads, "threadId", agent);
  if ("threadName" in threads) member(threads, "threadName", threadName);
  member(threads, "resourceLimits", place.resourceLimits);
  member(threads, "workerData", workerData);
  member(threads, "parentPort", parentPort);
  member(threads, "getEnvironmentData", (/** @type {unknown} */ key) => environment.get(key));
  member(threads, "setEnvironmentData", (/** @type {unknown} */ key, /** @type {unknown} */ value) => {
    if (value === undefined) environment.delete(key);
    else environment.set(key, value);
  });
  for (const name of ["MessageChannel", "BroadcastChannel"]) {
    if (classes[name] !== undefined) member(globalThis, name, classes[name]);
  }
  /** @type {any} */
  const own = process;
  own.argv = place.argv;
  own.execArgv = place.execArgv;
  if (place.env !== undefined) own.env = place.env;
}

/**
 * @param {(given: unknown[]) => void} exit gets what the program has given
 * @param {number} agent
 */
export function installProcess(exit, agent) {
  replaceNeeded(process, "exit", () => (/** @type {unknown[]} */ ...given) => exit(given));
  member(process, "reallyExit", (/** @type {unknown} */ code) => exit([code]));
  member(process, "abort", () => {
    if (agent === 0) exit([134]);
    throw nodeError("ERR_WORKER_UNSUPPORTED_OPERATION", "process.abort() is not supported in workers", {}, TypeError);
  });
  syncBuiltinESMExports();
}

/** @type {Map<string, Function[]>} what listens by itself, by the names of events */
const listening = new Map();

/** Remembers how the thread's process is before a program runs in it. */
export function keepProcess() {
  /** @type {any} */
  const own = process;
  for (const name of own.eventNames()) listening.set(name, own.rawListeners(name));
}

/** Forgets the times that an earlier run has marked. */
function clearTimes() {
  performance.clearMarks();
  performance.clearMeasures();
  performance.clearResourceTimings();
}

const sockets = /** @type {any} */ (net);

/** How node's sockets choose among addresses, and what changes that. */
const CHOOSING = ["DefaultAutoSelectFamily", "DefaultAutoSelectFamilyAttemptTimeout"].map((name) => {
  const { [`get${name}`]: get, [`set${name}`]: set } = sockets;
  return { set, value: get() };
});

/** Nothing of an earlier run listens, or has changed how sockets choose. */
export function restoreProcess() {
  /** @type {any} */
  const own = process;
  for (const name of own.eventNames()) own.removeAllListeners(name);
  clearTimes();
  CHOOSING.forEach(({ set, value }) => set(value));
  for (const [name, listeners] of listening) for (const listener of listeners) own.on(name, listener);
}
