// Whether an agent leaves something to be done later: a timer, a callback, what comes after a promise. Its worker never
// gets there, so the agent would seem to have finished with its work undone. What an async function throws is found
// here too: its promise is rejected, and nobody would hear of it.

import { createHook } from "node:async_hooks";
import util from "node:util";
import { promiseHooks } from "node:v8";
import { apply, uncurried, weakHas, weakSet } from "../primordials.mjs";
import { framesHere, isAgentsFile, sourceHere } from "./frames.mjs";
import { methodOf, replace } from "./ordinary/patch.mjs";
import { withoutOwn } from "./stack.mjs";

const { inspect } = util;
const { WeakMap: EngineWeakMap } = globalThis;
const startsWith = uncurried(String.prototype.startsWith);
const endsWith = uncurried(String.prototype.endsWith);
const partOf = uncurried(String.prototype.slice);
const found = uncurried(RegExp.prototype.exec);

/** @type {Readonly<Record<string, string>>} what goes on later, by the type of node's resource */
const WORDS = Object.freeze({
  Microtask: "queueMicrotask", TickObject: "process.nextTick", STATWATCHER: "a callback",
});
/** @type {Readonly<Record<string, string>>} the same, of what can be cleared */
const TIMERS = Object.freeze({ Timeout: "a timer", Immediate: "setImmediate" });
const CALLBACKS = Object.freeze(["CALLBACK", "REQ", "WRAP"]);

// What node's crypto does is one of these, whether it is done at once or later.
const JOB = "REQUEST";

// What node itself does later for a warning, and for a worker that was started: nothing of the agent's.
const HARMLESS = Object.freeze(["node:internal/process/warning", "node:internal/worker"]);

// What zlib does at once is done by a stream of its own, which leaves a tick behind if it fails.
const ZLIB = Object.freeze({ type: "ZLIB", file: "node:zlib", atOnce: "zlibBufferSync", making: "syncBufferWrapper" });

// A listener's error is thrown once more by a tick, and nobody catches it there.
const LISTENERS = Object.freeze({
  type: "TickObject", file: "node:internal/event_target", throwing: "emitUncaughtException",
});

// Node loads some of its own modules when they are asked for first. What their code does then is nothing of the
// agent's.
const LOADING = "node:internal/bootstrap/realm";

// The frames of this file come before those of its caller.
const OWN = import.meta.url;

const SHOWN = Object.freeze({ depth: 0, customInspect: false, compact: true, breakLength: Infinity });
const REJECTED = /\{\s+<rejected> /;
/** What node's hooks have put in a promise. */
const HOOKS = /,\s+\[?Symbol\(async_id_symbol\)/;
const END = " }";

/**
 * Why a promise was rejected, from the text by which node shows it: nothing else says so at once.
 * @param {string} text
 * @returns {string | undefined} undefined if it wasn't
 */
function reasonIn(text) {
  const begin = found(REJECTED, text);
  if (begin === null) return undefined;
  const reason = partOf(text, begin.index + begin[0].length);
  return partOf(reason, 0, found(HOOKS, reason)?.index ?? reason.length - END.length);
}

/**
 * @param {(frame: NodeJS.CallSite) => boolean} test
 * @returns {NodeJS.CallSite | undefined} the innermost frame of the code that runs now for which it holds
 */
function frameThat(test) {
  const frames = framesHere();
  for (let at = 0; at < frames.length; at += 1) {
    if (test(frames[at])) return frames[at];
  }
  return undefined;
}

/** @returns {boolean} whether a tick throws what a listener of an EventTarget has thrown */
const isListenersTick = () =>
  frameThat((frame) => frame.getFileName() === LISTENERS.file)?.getFunctionName() === LISTENERS.throwing;

/** @param {Function} act @returns {{ thrown?: unknown }} what a function throws */
function thrownBy(act) {
  try {
    act();
    return {};
  } catch (thrown) {
    return { thrown };
  }
}

/** @param {string} type of node's resources @returns {string | undefined} what goes on later, in words */
function wordFor(type) {
  if (type === "TickObject" && isHarmlessTick()) return undefined;
  if (type === ZLIB.type) return frameThat(isZlibAtOnce) === undefined ? "a stream of zlib" : undefined;
  const word = WORDS[type];
  if (word !== undefined) return word;
  for (let at = 0; at < CALLBACKS.length; at += 1) {
    if (endsWith(type, CALLBACKS[at])) return "a callback";
  }
  return undefined;
}

/** @param {NodeJS.CallSite} frame @returns {boolean} whether a frame is of what zlib does at once */
function isZlibAtOnce(frame) {
  if (frame.getFileName() !== ZLIB.file) return false;
  const name = frame.getFunctionName();
  return name === ZLIB.atOnce || name === ZLIB.making;
}

/** Whether `process.nextTick` is called by one of node's own files that do no harm there. */
function isHarmlessTick() {
  const frames = framesHere();
  for (let at = 0; at < frames.length; at += 1) {
    const file = frames[at].getFileName();
    if (file === HARMLESS[0] || file === HARMLESS[1]) return true;
    if (isZlibAtOnce(frames[at])) return true;
    if (file !== OWN && typeof file === "string" && !startsWith(file, "node:")) return false;
  }
  return false;
}

/** @returns {boolean} whether node loads one of its own modules */
function isLoading() {
  const frames = framesHere();
  for (let at = 0; at < frames.length; at += 1) {
    const file = frames[at].getFileName();
    if (file === LOADING) return true;
    if (isAgentsFile(file)) return false;
  }
  return false;
}

export class PendingWork {
  /** It notes from now on which promises something comes after, so it is made before the agents' module is loaded. */
  constructor() {
    this.isWatching = false;
    /** @type {string | undefined} what surely goes on later, in words */
    this.found = undefined;
    /** @type {string | undefined} where in the agent's code that is, if it is known */
    this.place = undefined;
    /** @type {Promise<unknown>[]} the promises that were settled */
    this.settled = [];
    /** @type {unknown[]} what listeners of an EventTarget threw */
    this.thrown = [];
    /** @type {any} the last job that was begun; somebody waits for one that is done later */
    this.job = undefined;
    /** @type {WeakMap<object, boolean>} the promises that something comes after, whenever that was said */
    this.awaited = new EngineWeakMap();
    /** @type {{ timer: any, word: string }[]} the timers that were set, and what each is in words */
    this.timers = [];
    promiseHooks.onInit((_promise, parent) => {
      if (parent === undefined) return;
      weakSet(this.awaited, parent, true);
      if (this.isWatching) this.#find("a promise");
    });
    promiseHooks.onSettled((promise) => {
      if (!this.isWatching) return;
      if (weakHas(this.awaited, promise)) this.#find("a promise that it settles");
      this.settled[this.settled.length] = promise;
    });
    this.#nameFetch();
  }

  /**
   * Notes timers and callbacks too, from now on. Nothing gets to the worker's event loop any more: there node's own
   * part of this hook calls methods that the agents' module may have patched.
   */
  enable() {
    createHook({ init: (_id, type, _trigger, resource) => this.#note(type, resource) }).enable();
  }

  /** An agent's code begins. */
  begin() {
    this.found = undefined;
    this.place = undefined;
    this.settled = [];
    this.thrown = [];
    this.job = undefined;
    this.timers = [];
    this.isWatching = true;
  }

  /** It has ended. */
  end() {
    this.isWatching = false;
  }

  /**
   * Notes that something surely goes on later, and where. The run fails for it, so looking at the stack costs no run
   * that passes.
   * @param {string | undefined} word
   */
  #find(word) {
    if (word === undefined || this.found !== undefined || isLoading()) return;
    this.found = word;
    this.place = sourceHere();
  }

  /** @returns {string | undefined} what goes on later, in words */
  ongoing() {
    this.#lookAtJob();
    return this.found;
  }

  /** @returns {string | undefined} what goes on when the agent's code has ended, in words */
  left() {
    const found = this.ongoing();
    // A cleared timer never fires.
    for (let at = 0; found === undefined && at < this.timers.length; at += 1) {
      const { timer, word } = this.timers[at];
      if (timer._destroyed !== true) return word;
    }
    return found;
  }

  /** @returns {string | undefined} the first error that a listener threw, which its EventTarget keeps to itself */
  thrownByListener() {
    return this.thrown.length === 0 ? undefined : withoutOwn(inspect(this.thrown[0], SHOWN));
  }

  /** @returns {string | undefined} why a promise was rejected, if nobody handles that */
  rejected() {
    for (let at = 0; at < this.settled.length; at += 1) {
      const reason = reasonIn(inspect(this.settled[at], SHOWN));
      if (reason !== undefined) return withoutOwn(reason);
    }
    return undefined;
  }

  /** What a fetch leaves to be done is node's own, and differs from node to node: so the fetch itself is named. */
  #nameFetch() {
    replace(globalThis, "fetch", (engine) => methodOf((_self, given) => {
      const isFirst = this.found === undefined;
      const answer = apply(engine, globalThis, given);
      if (isFirst && this.found !== undefined) this.found = "a fetch";
      return answer;
    }, engine));
  }

  /** @param {string} type of node's resource @param {any} resource of which node's own names are known */
  #note(type, resource) {
    if (!this.isWatching || this.found !== undefined) return;
    const word = TIMERS[type];
    if (word !== undefined) {
      this.timers[this.timers.length] = { timer: resource, word };
      return;
    }
    if (type === LISTENERS.type && isListenersTick()) {
      // All that this tick does is to throw.
      const { thrown } = thrownBy(resource.callback);
      this.thrown[this.thrown.length] = thrown;
      return;
    }
    if (!endsWith(type, JOB)) {
      this.#find(wordFor(type));
      return;
    }
    this.#lookAtJob();
    this.job = resource;
  }

  /** It is known only after a job has been made who waits for it. */
  #lookAtJob() {
    if (this.job !== undefined && typeof this.job.ondone === "function") this.found ??= "a callback";
  }
}
