// Memory that is given to other threads, by messages or as they are started. Nobody sees what they do with it. So
// recorded memory is refused there, whatever is done with ordinary accesses, and other shared memory is noted.

import {
  apply, bufferBehind, getPrototypeOf, put, uncurried, weakGet, weakSet,
} from "../../primordials.mjs";
import { blockNumber, watching } from "./context.mjs";
import { anyReaches, revealed } from "./guards.mjs";
import { methodOf, replace, replaceClass, replaceEach, replaceNeeded } from "./patch.mjs";
import { WHOLLY, isRecorded } from "./reach.mjs";
import { anyWatchedOf } from "./watched.mjs";

/** @typedef {typeof import("node:worker_threads").default} ThreadsModule */

const EngineShared = SharedArrayBuffer;
const EngineMemory = WebAssembly.Memory;
/** @type {Function} */
const EnginePort = MessagePort;
const { isView } = ArrayBuffer;
const forget = uncurried(WeakMap.prototype.delete);

/** The other port of each port of a channel that this thread has made, while the thread has both. */
const peers = new WeakMap();

/** Ports whose other port was given to another thread. */
const abroad = new WeakMap();

/** @param {object} port @returns {object | undefined} the other port of its channel, if this thread has both */
export const peerOf = (port) => weakGet(peers, port);

/** @param {object} port @returns {boolean} whether another thread was given the other port of its channel */
export const leadsAbroad = (port) => weakGet(abroad, port) === true;

/** @param {object} port that is given to another thread */
function giveAway(port) {
  const peer = peerOf(port);
  if (peer === undefined) return;
  forget(peers, port);
  forget(peers, peer);
  weakSet(abroad, peer, true);
}

/** @type {import("./reach.mjs").Test} whether a value is recorded memory, also if arrays aren't watched */
const isRecordedHere = (value) => isRecorded(value) || (isView(value) && blockNumber(bufferBehind(value)) >= 0);

/** @param {unknown} value @returns {boolean} whether a value is memory that threads can share */
const isShared = (value) => value instanceof EngineShared || value instanceof EngineMemory
  || anyWatchedOf(value) !== undefined || (isView(value) && bufferBehind(value) instanceof EngineShared);

/** @param {unknown} value @returns {object[]} the recorded buffers that it holds */
export function recordedIn(value) {
  /** @type {object[]} */
  const found = [];
  anyReaches([value], WHOLLY, false, (inner) => {
    if (!isRecordedHere(inner)) return false;
    found[found.length] = isView(inner) ? bufferBehind(inner) : /** @type {object} */ (inner);
    return false;
  });
  return found;
}

/**
 * Whether what is given has shared memory in it, or a port by which a thread could get some. Such ports are given away.
 * @param {unknown[]} given
 */
function givesAway(given) {
  let isFound = false;
  anyReaches(given, WHOLLY, false, (value) => {
    const isPort = value instanceof EnginePort;
    if (isPort) giveAway(/** @type {object} */ (value));
    isFound ||= isPort || isShared(value);
    return false;
  });
  return isFound;
}

/**
 * What is given to another thread, with the engine's own arrays.
 * @param {string} what gives it
 * @param {unknown[]} given
 * @param {boolean} [staysHere] whether it goes to a port that this thread has
 * @returns {unknown[]}
 */
function handedOn(what, given, staysHere = false) {
  if (anyReaches(given, WHOLLY, true, isRecordedHere)) {
    watching.refuse(`${what} was given recorded memory, and nobody sees what another thread does with it`);
  }
  if (givesAway(given) && !staysHere) watching.given(what);
  return revealed(given);
}

/** @type {(what: string) => import("./patch.mjs").StandInMaker} what node posts itself is none of the agents' memory */
const handing = (what) => (engine) => {
  const method = methodOf((self, given) => {
    const isAgents = !isStarting && watching.isCalledByAgents(method);
    return apply(engine, self, isAgents ? handedOn(what, given, peerOf(self) !== undefined) : given);
  }, engine);
  return method;
};

/** @param {() => any} made @returns {object} a channel both of whose ports this thread has */
function paired(made) {
  const channel = made();
  weakSet(peers, channel.port1, channel.port2);
  weakSet(peers, channel.port2, channel.port1);
  return channel;
}

/** Whether node starts a thread: then it posts messages of its own. */
let isStarting = false;

/** @param {() => any} made @param {unknown[]} given @returns {object} a Worker */
function started(made, given) {
  const revealedGiven = handedOn("a new Worker", given);
  for (let at = 0; at < given.length; at += 1) given[at] = revealedGiven[at];
  isStarting = true;
  try {
    return made();
  } finally {
    isStarting = false;
  }
}

/**
 * Refuses node's locks, if it has some: they are those of all its threads, and nobody orders who gets them.
 * @param {{ locks?: object }} threads
 */
function refuseLocks({ locks }) {
  if (locks === undefined) return;
  /** @type {any} */
  const prototype = getPrototypeOf(locks);
  replaceEach(prototype, ["request", "query"], (engine, name) => methodOf(() => watching.refuse(
    `navigator.locks.${name} was called, and its locks aren't simulated: use a lock in \`buffers\``), engine));
}

/**
 * Patches what gives values to other threads.
 * @param {ThreadsModule} threads
 */
export function watchThreads(threads) {
  replaceClass(threads, "MessageChannel", paired);
  put(globalThis, "MessageChannel", threads.MessageChannel);
  replaceClass(threads, "Worker", started);
  for (const name of /** @type {const} */ (["MessagePort", "BroadcastChannel", "Worker"])) {
    replaceNeeded(threads[name].prototype, "postMessage", handing(`postMessage of a ${name}`));
  }
  replaceNeeded(threads, "setEnvironmentData", handing("setEnvironmentData"));
  replace(threads, "postMessageToThread", handing("postMessageToThread"));
  refuseLocks(/** @type {{ locks?: object }} */ (/** @type {object} */ (threads)));
  if (typeof process.send === "function") replace(process, "send", handing("process.send"));
}
