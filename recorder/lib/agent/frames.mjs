// Where in its code an agent is: the frame of what has called the recorder, or a function of the engine that the
// recorder stands for.

import { UNKNOWN_SOURCE } from "../memory/sources.mjs";
import { mapGet, mapSet, set, uncurried } from "../primordials.mjs";
import { watching } from "./ordinary/context.mjs";

/** @typedef {import("../memory/sources.mjs").Sources} Sources */

const { Error: EngineError, Map: EngineMap } = globalThis;
const { captureStackTrace } = EngineError;
const begins = uncurried(String.prototype.startsWith);

// How many frames are looked at: each costs time, and as a rule few of the recorder's own are above the agent's.
const FEW_FRAMES = 3;
const SOME_FRAMES = 12;
const MOST_FRAMES = 200;

// The recorder's own files, and node's.
const RECORDER = new URL("../../", import.meta.url).href;
const LIBRARY = `${RECORDER}lib/`;
const OWN = [LIBRARY, `${RECORDER}script/`, "node:", "wasm://wasm/sabsim-"];
const COMPILED = "wasm:";

/** Which instruction of WebAssembly has called the recorder last: its position in its module. */
export const compiled = { at: 0 };

/** @type {(error: Error, frames: NodeJS.CallSite[]) => NodeJS.CallSite[]} */
const sites = (_error, frames) => frames;

/**
 * The frames of the code that runs now, the innermost first.
 * @param {Function} [from] the one whose frame, with those above it, is left out
 * @param {number} [most] how many
 * @returns {NodeJS.CallSite[]}
 */
export function framesHere(from = framesHere, most = MOST_FRAMES) {
  return framesIn(stackHere(from, most));
}

/** @typedef {{ stack?: any }} Stack frames that the engine has kept: what shows them is made when it is asked for */

/** @param {Function} from as above @param {number} most @returns {Stack} */
function stackHere(from, most) {
  const { stackTraceLimit } = EngineError;
  /** @type {Stack} */
  const holder = {};
  try {
    // It doesn't throw if the agents' code has made it constant: then no frames are known.
    set(EngineError, "stackTraceLimit", most);
    captureStackTrace(holder, from);
  } finally {
    // If the stack has run out, nothing can be called.
    if (EngineError.stackTraceLimit !== stackTraceLimit) EngineError.stackTraceLimit = stackTraceLimit;
  }
  return holder;
}

/** @param {Stack} holder @returns {NodeJS.CallSite[]} */
function framesIn(holder) {
  const { prepareStackTrace } = EngineError;
  try {
    // The same as above.
    set(EngineError, "prepareStackTrace", sites);
    const { stack } = holder;
    return typeof stack === "object" ? stack : [];
  } finally {
    if (EngineError.prepareStackTrace !== prepareStackTrace) EngineError.prepareStackTrace = prepareStackTrace;
  }
}

/** @param {string} file */
function isOwn(file) {
  for (let at = 0; at < OWN.length; at += 1) {
    if (begins(file, OWN[at])) return true;
  }
  return false;
}

/** @param {unknown} file @returns {boolean} whether it is one of the recorder's that agents' code calls */
const isOfLibrary = (file) => typeof file === "string" && begins(file, LIBRARY);

/**
 * Frames as the agents' code is to see them: without the recorder's own, unless there are no others.
 * @param {NodeJS.CallSite[]} frames
 * @returns {NodeJS.CallSite[]}
 */
export function shownFrames(frames) {
  const shown = [];
  let isOfAgents = false;
  for (let at = 0; at < frames.length; at += 1) {
    const file = /** @type {string | null} */ (frames[at].getFileName());
    if (isAgentsFile(file)) isOfAgents = true;
    if (!isOfLibrary(file)) shown[shown.length] = frames[at];
  }
  return isOfAgents ? shown : frames;
}

/** @type {Map<string, boolean>} for each file whether it is one of the agents' code */
const agentsFiles = new EngineMap();

/** @param {string | null} file @returns {boolean} whether it is one of the agents' code, and not the recorder's */
export function isAgentsFile(file) {
  if (typeof file !== "string") return false;
  const known = mapGet(agentsFiles, file);
  if (known !== undefined) return known;
  const found = !isOwn(file);
  mapSet(agentsFiles, file, found);
  return found;
}

/**
 * The innermost of some frames that is of the agents' code.
 * @param {NodeJS.CallSite[]} frames
 */
function firstOfAgents(frames) {
  for (let at = 0; at < frames.length; at += 1) {
    if (isAgentsFile(frames[at].getFileName())) return frames[at];
  }
  return undefined;
}

/**
 * The innermost frame of the agents' code, however far it is.
 * @param {Function} from a function whose frame, with those above it, is left out
 */
function farFrame(from) {
  const some = framesHere(from, SOME_FRAMES);
  return firstOfAgents(some) ?? (some.length < SOME_FRAMES ? undefined : firstOfAgents(framesHere(from)));
}

/**
 * The innermost frame of the agents' code. `watching.seen` gets an ordinary access, and its own frame is near.
 * @param {Function} from a function whose frame, with those above it, is left out
 */
const agentsFrame = (from) => firstOfAgents(framesHere(watching.seen, FEW_FRAMES)) ?? farFrame(from);

/**
 * Where a frame is. That of WebAssembly is the innermost one, so it is at the instruction that has called the recorder.
 * @param {NodeJS.CallSite} frame
 * @returns {{ file: string | null, line: number | null, column: number | null }}
 */
function positionOf(frame) {
  const file = /** @type {string | null} */ (frame.getFileName());
  if (typeof file !== "string" || !begins(file, COMPILED)) {
    return { file, line: frame.getLineNumber(), column: frame.getColumnNumber() };
  }
  const name = frame.getFunctionName() ?? "a function without a name";
  return { file: `${COMPILED}${name}`, line: 1, column: compiled.at };
}

/** @param {NodeJS.CallSite} [frame] @returns {string | undefined} its file, line and column */
function placeOf(frame) {
  if (frame === undefined) return undefined;
  const { file, line, column } = positionOf(frame);
  return `${file}:${line}:${column}`;
}

/** @returns {string | undefined} file, line and column of the agent's own code */
export const sourceHere = () => placeOf(agentsFrame(sourceHere));

/** @returns {string | undefined} the same, of code that makes no ordinary access now: that takes half the time */
export const sourceOfCall = () => placeOf(farFrame(sourceOfCall));

/** @typedef {() => string | undefined} PlaceFinder finds a place of the agent's own code when it is called */

/**
 * The same place, found later: that takes most of the time. As a rule the agent's frame is near the one of what its
 * code has called.
 * @param {Function} called the frames above its own are left out
 * @param {number} [near] how many frames are looked at now
 * @returns {PlaceFinder}
 */
export function sourceLater(called, near = FEW_FRAMES) {
  const frame = firstOfAgents(framesHere(called, near));
  const stack = frame === undefined ? stackHere(sourceLater, MOST_FRAMES) : {};
  /** @type {string | undefined} */
  let place;
  return () => {
    place ??= placeOf(frame ?? firstOfAgents(framesIn(stack)));
    return place;
  };
}

/**
 * Whether the agents' code has called a function, perhaps by functions of the recorder, and not node.
 * @param {Function} called
 */
export function isCalledByAgents(called) {
  const frames = framesHere(called, SOME_FRAMES);
  for (let at = 0; at < frames.length; at += 1) {
    const file = frames[at].getFileName();
    if (typeof file !== "string" || !begins(file, LIBRARY)) return isAgentsFile(file);
  }
  return false;
}

/**
 * The number of where the agent's code is.
 * @param {Sources} sources of the agent
 * @returns {number} `UNKNOWN_SOURCE` if no frame of it is found, or there is no room for it
 */
export function numberHere(sources) {
  const frame = agentsFrame(numberHere);
  return frame === undefined ? UNKNOWN_SOURCE : numberOf(sources, frame);
}

/**
 * The same as `numberHere`, if it is known what the agent's code has called. So a single frame is enough as a rule.
 * @param {Sources} sources of the agent
 * @param {Function} called
 * @returns {number}
 */
export function numberAbove(sources, called) {
  const frame = framesHere(called, 1)[0];
  return frame !== undefined && isAgentsFile(frame.getFileName()) ? numberOf(sources, frame) : numberHere(sources);
}

/**
 * The same as `sourceHere`, if it is known what the agent's code has called.
 * @param {Function} called
 * @returns {string | undefined}
 */
export function sourceAbove(called) {
  const frame = framesHere(called, 1)[0];
  return frame !== undefined && isAgentsFile(frame.getFileName()) ? placeOf(frame) : sourceOfCall();
}

/** @param {Sources} sources @param {NodeJS.CallSite} frame */
function numberOf(sources, frame) {
  const { file, line, column } = positionOf(frame);
  return sources.numberOf(file, line, column);
}
