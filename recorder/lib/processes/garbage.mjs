// Garbage. Each thread has a heap of its own. The engine doesn't collect what has outlived a first while, up to some
// hundred megabytes. So that memory doesn't grow with the seeds, a process that is the recorder's own collects it
// itself. It does so in each of its threads, whenever that has done something often enough.
//
// No flag of the engine differs from its default while a worker begins. Node has its own code compiled ahead, for the
// default flags alone: with others each worker would compile it anew.

import { setFlagsFromString } from "node:v8";
import { Script, createContext } from "node:vm";
import { getEnvironmentData, setEnvironmentData } from "node:worker_threads";

// Collecting takes some milliseconds, so it is done seldom.
const OFTEN_ENOUGH = 1_024;

/** What shows the engine's own way to collect to all code of contexts that begin from now on, and what ends that. */
const SHOWN = "--expose-gc";
const HIDDEN = "--no-expose-gc";

/** The room for young objects doesn't grow any more, until a worker begins. By itself it grows to 16 MB twice. */
const NO_GROWTH = "--semi-space-growth-factor=1";
const ASKED = /--expose[-_]gc/;

/** The same in a worker: 2 MB twice, and as much for large objects. */
const WORKER_LIMITS = Object.freeze({ maxYoungGenerationSizeMb: 6 });

/** Under this key the threads of a process find whether the process is the recorder's own. */
const KEY = "sabsim: garbage is collected";

/** @type {{ gc?: () => void }} */
const realm = /** @type {any} */ (globalThis);

/** @type {(() => void) | undefined} undefined: no thread has shown it yet */
let collect = realm.gc;

// A worker that begins while another thread shows it finds it too, though no code there has asked for it. It can't be
// deleted.
const isAsked = ASKED.test(`${process.execArgv.join(" ")} ${process.env.NODE_OPTIONS ?? ""}`);
if (collect !== undefined && !isAsked) realm.gc = undefined;

let isOwn = getEnvironmentData(KEY) === true;

// Agents may replace what they find in node's modules later.
const { apply } = Reflect;
const { runInContext } = Script.prototype;

/** This process is the recorder's own: its garbage is collected, also in the threads that it starts from now on. */
export function collectGarbage() {
  setEnvironmentData(KEY, true);
  isOwn = true;
}

/** If this process is the recorder's own, its first thread gets no more room for young objects. */
export function stopGrowth() {
  if (isOwn) setFlagsFromString(NO_GROWTH);
}

/** @returns {{ maxYoungGenerationSizeMb?: number }} the limits of the workers of this process */
export const workerLimits = () => (isOwn ? WORKER_LIMITS : {});

/** @returns {() => void} the engine's own way to collect this thread's garbage */
function collector() {
  setFlagsFromString(SHOWN);
  try {
    return apply(runInContext, new Script("globalThis.gc"), [createContext()]);
  } catch {
    // Agents have broken what node needs for it. Then collecting is left to the engine.
    return () => {};
  } finally {
    setFlagsFromString(HIDDEN);
  }
}

let times = 0;

/** Takes note that something was done once more: each time leaves some garbage. */
export function onceMore() {
  times += 1;
  if (times % OFTEN_ENOUGH !== 0) return;
  if (isOwn) collect ??= collector();
  collect?.();
}
