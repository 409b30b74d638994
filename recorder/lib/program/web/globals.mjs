// The global object of a thread of a browser: what only node has is taken away, and what browsers have is put there.

import { apply, deleteProperty, likeEngine, put, setPrototypeOf } from "../../primordials.mjs";
import { lockManager } from "../locks/locks.mjs";
import { hide } from "./hidden.mjs";
import { ErrorEvent, PromiseRejectionEvent, putHandler, putMethods } from "./targets.mjs";

/** @typedef {import("../thread/thread-services.mjs").ThreadServices} ThreadServices */

const EngineTarget = EventTarget;
const EngineException = DOMException;
const { TypeError: EngineTypeError, URL: EngineURL } = globalThis;

const OF_NODE = Object.freeze(["__dirname", "__filename", "exports", "module", "process", "require"]);

/** What node's own Response and the like ask for. */
const FOR_NODE = Object.freeze(["Buffer", "clearImmediate", "global", "setImmediate"]);

/** How many processors the program finds, on any machine. */
const PROCESSORS = 4;

const LOCATION = Object.freeze([
  "href", "origin", "protocol", "host", "hostname", "port", "pathname", "search", "hash",
]);

class WorkerGlobalScope extends EngineTarget {}
class DedicatedWorkerGlobalScope extends WorkerGlobalScope {}
class Window extends EngineTarget {}
for (const each of [WorkerGlobalScope, DedicatedWorkerGlobalScope, Window]) {
  put(each.prototype, Symbol.toStringTag, each.name);
}

/** @type {any} */
const scope = globalThis;

/** @param {Record<string, unknown>} members that get into the global object */
function putAll(members) {
  for (const [name, value] of Object.entries(members)) put(scope, name, value);
}

/** Timers with numbers, as browsers have them. */
function putTimers() {
  for (const name of ["setTimeout", "setInterval"]) {
    const { [name]: start } = scope;
    /** @type {(callback: any, after: unknown, ...given: unknown[]) => number} */
    const numbered = (callback, after, ...given) => {
      const called = typeof callback === "function" ? () => apply(callback, scope, given) : callback;
      return Number(start(called, after));
    };
    put(scope, name, likeEngine(numbered, start));
  }
}

/** For how long an idle page says that it has nothing to do, at most. */
const IDLE_MILLISECONDS = 50;

/** What the callback of an idle page gets. */
class IdleDeadline {
  #left;

  /** @param {() => number} left how many milliseconds are left */
  constructor(left) {
    this.#left = left;
  }

  get didTimeout() {
    return false;
  }

  timeRemaining() {
    return this.#left();
  }
}
put(IdleDeadline.prototype, Symbol.toStringTag, "IdleDeadline");

/** @param {ThreadServices} parts of a page: what it does when it is idle is a task of its own */
function putIdle({ later, moves: { board: { clock } } }) {
  const cancelled = new Set();
  let made = 0;
  const requestIdleCallback = (/** @type {any} */ callback) => {
    if (typeof callback !== "function") {
      throw new EngineTypeError("Failed to execute 'requestIdleCallback' on 'Window': "
        + "parameter 1 is not of type 'Function'.");
    }
    made += 1;
    const number = made;
    later("is idle", () => {
      if (cancelled.delete(number)) return;
      const end = clock.now() + IDLE_MILLISECONDS;
      callback(new IdleDeadline(() => Math.max(0, end - clock.now())));
    });
    return number;
  };
  const cancelIdleCallback = (/** @type {number} */ number) => void cancelled.add(number);
  putAll({ requestIdleCallback, cancelIdleCallback, IdleDeadline });
}

/** @param {string} given @returns {string} the URL of a script that a script imports */
function scriptUrl(given) {
  try {
    return new EngineURL(given, scope.location.href).href;
  } catch {
    const text = `Failed to execute 'importScripts' on 'WorkerGlobalScope': The URL '${given}' is invalid.`;
    throw new EngineException(text, "SyntaxError");
  }
}

/**
 * What a worker's scope has, and a page doesn't.
 * @param {ThreadServices & { ends: import("./web-ends.mjs").WebEnds }} parts
 * @param {import("./targets.mjs").Targets} targets
 * @param {(url: string) => void} run runs a script in the global scope
 */
function putWorkersScope({ ports, ends }, targets, run) {
  const postMessage = (/** @type {unknown} */ value, /** @type {unknown} */ transfer) =>
    ports.send(ends.parentPort, value, transfer, postMessage);
  const importScripts = (/** @type {unknown[]} */ ...urls) => {
    if (type === "module") {
      throw new EngineTypeError("Failed to execute 'importScripts' on 'WorkerGlobalScope': "
        + "Module scripts don't support importScripts().");
    }
    for (const url of urls.map((each) => scriptUrl(`${each}`))) run(url);
  };
  putAll({ WorkerGlobalScope, DedicatedWorkerGlobalScope, postMessage, importScripts });
  for (const name of ["message", "messageerror"]) putHandler(scope, name, targets);
}

/** What kind of script the thread runs. */
let type = "module";

/**
 * Makes the global object that of a browser: once in a thread.
 * @param {ThreadServices & { ends: import("./web-ends.mjs").WebEnds }} parts
 * @param {import("./targets.mjs").Targets} targets
 * @param {(url: string) => void} run runs a script in the global scope
 */
export function installGlobals(parts, targets, run) {
  const { ends, refuse, moves: { agent } } = parts;
  /** What isn't simulated is there, and ends the run when it is called. */
  const refusing = (/** @type {string} */ name) => function () {
    refuse(`called ${name}, which isn't simulated`);
  };
  const { manager: locks, classes } = lockManager(parts.locks);
  for (const name of [...OF_NODE, Symbol.toStringTag]) deleteProperty(scope, name);
  for (const name of FOR_NODE) hide(scope, name);
  putTimers();
  putMethods(scope, targets);
  for (const name of ["error", "unhandledrejection"]) putHandler(scope, name, targets);
  putAll({
    ...classes, self: scope, ErrorEvent, PromiseRejectionEvent, crossOriginIsolated: true, isSecureContext: true,
    navigator: Object.freeze({ hardwareConcurrency: PROCESSORS, userAgent: "sabsim", language: "en-US", locks }),
    close: () => ends.close(), reportError: (/** @type {unknown} */ thrown) => ends.uncaught(thrown),
  });
  if (agent === 0) {
    putAll({ window: scope, Window, SharedWorker: refusing("SharedWorker") });
    putIdle(parts);
  } else putWorkersScope(parts, targets, run);
  setPrototypeOf(scope, (agent === 0 ? Window : DedicatedWorkerGlobalScope).prototype);
}

/** @param {string} href @returns {object} the `location` of a thread's script */
function locationOf(href) {
  const url = /** @type {any} */ (new EngineURL(href));
  const parts = LOCATION.map((name) => [name, url[name]]);
  return Object.freeze({ ...Object.fromEntries(parts), toString: () => url.href });
}

/**
 * Gives the global object what it has in a run.
 * @param {{ url: string, type: string, name: string }} start
 * @param {Record<string, unknown>} classes of the run
 */
export function beginGlobals(start, classes) {
  type = start.type;
  putAll({ ...classes, location: locationOf(start.url), origin: "null", name: start.name });
}
