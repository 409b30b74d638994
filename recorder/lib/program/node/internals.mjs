// What the recorder uses of node's inside: all of it is here, with what is needed of it. Only threads with the flags of
// `graph-flags.cjs` have it. If this node lacks something, no thread of a program begins, and the error names all.

import Module from "node:module";
import process from "node:process";
import { defineProperty, setPrototypeOf } from "../../primordials.mjs";
import { REFUSED } from "../../options/refused.mjs";
import { TRIED } from "../../processes/node-versions.mjs";

const required = Module.createRequire(import.meta.url);

/** The names of the modules of node's inside. */
export const INSIDE = /^internal\//;

/** @type {string[]} what this node lacks */
const lacking = [];

/**
 * Node warns of experiments and of its inside. The recorder uses them, and not the program, so no warning is shown.
 * @template Made
 * @param {() => Made} make
 * @returns {Made}
 */
function withoutWarning(make) {
  const own = /** @type {any} */ (process);
  const { emitWarning } = own;
  own.emitWarning = () => {};
  try {
    return make();
  } finally {
    own.emitWarning = emitWarning;
  }
}

/**
 * @param {any} found of this node
 * @param {Record<string, string>} needed the names of what it has to have, and what `typeof` says about them
 * @param {string} shown its name
 */
function demand(found, needed, shown) {
  for (const [name, type] of Object.entries(needed)) {
    if (typeof found[name] !== type) lacking.push(`${name} of ${shown}`);
  }
}

/**
 * A module of node's own. Its name is no literal, which the checker of types would look for.
 * @param {string} id without `internal/`
 * @param {Record<string, string>} needed the names of what it has to export, and what `typeof` says about them
 * @returns {any}
 */
function inside(id, needed) {
  let exported = /** @type {any} */ ({});
  try {
    exported = withoutWarning(() => required(`internal/${id}`));
  } catch {
    // All that is needed of it is missing.
  }
  demand(exported, needed, `internal/${id}`);
  return exported;
}

/** @param {string} id of a module of node's, without `internal/` @returns {boolean} whether this node has it */
const has = (id) => required("node:module").builtinModules.includes(`internal/${id}`);

/** What of node isn't JavaScript, by the names of its parts; the language's functions as node's own code takes them. */
const { internalBinding, primordials } = inside("test/binding", { internalBinding: "function", primordials: "object" });

/**
 * A part of node that isn't JavaScript.
 * @param {string} id
 * @param {Record<string, string>} needed as above
 * @returns {any}
 */
function below(id, needed) {
  const found = internalBinding?.(id) ?? {};
  demand(found, needed, `the binding ${id}`);
  return found;
}

const asyncHooks = inside("async_hooks", {
  clearAsyncIdStack: "function", popAsyncContext: "function", pushAsyncContext: "function", symbols: "object",
});
const asyncWrap = below("async_wrap", { async_id_fields: "object", constants: "object" });

/** What AsyncLocalStorage holds now; a later node has it here, and not in async_hooks. */
const contextFrames = has("async_context_frame") ? inside("async_context_frame", { set: "function" }) : { set() {} };

/** Forgets which contexts of async_hooks are open, and what AsyncLocalStorage holds. */
export function leaveContexts() {
  asyncHooks.clearAsyncIdStack();
  contextFrames.set(undefined);
}

/** The number of async_hooks of all that no program has begun. */
const OUTSIDE = 1;

/** The numbers of what a run begins come after this one: a thread has fewer before. */
const BEFORE_RUNS = 1_000;

/**
 * @param {object} resource of something that the recorder does now: what the program's code begins then is under no
 * other
 */
export const enterContext = (resource) => void asyncHooks.pushAsyncContext(OUTSIDE, 0, resource);

/** It is done. */
export const exitContext = () => void asyncHooks.popAsyncContext(OUTSIDE);

/** The numbers of async_hooks, and of timers, are counted anew: so they are the same in each run. */
export function countAnew() {
  asyncWrap.async_id_fields[asyncWrap.constants.kAsyncIdCounter] = BEFORE_RUNS;
}

/** Node's own timers and immediates: those of the run, in a program's thread. */
export const nodeTimers = inside("timers", {
  Timeout: "function", Immediate: "function", getTimerCallbacks: "function", timerListMap: "object",
  timerListQueue: "object", immediateQueue: "object", knownTimersById: "object", async_id_symbol: "symbol",
  kRefed: "symbol",
});

/** What node's timers stand on. */
const timersBelow = below("timers", {
  getLibuvNow: "function", scheduleTimer: "function", setupTimers: "function", toggleImmediateRef: "function",
  toggleTimerRef: "function", immediateInfo: "object", timeoutInfo: "object",
});

/** The same as it is of the thread, however it is replaced later. The functions are called as members of `binding`. */
export const realTimers = { ...timersBelow, binding: timersBelow };

/** The words of `immediateInfo`: how many immediates there are, how many keep the thread alive, if one has thrown. */
export const IMMEDIATES = 0;
export const REFED_IMMEDIATES = 1;
export const THREW = 2;

/**
 * Has node's own timers and immediates stand on something else: nothing of them runs by itself.
 * @param {() => number} now whole milliseconds
 * @param {(item: any) => void} made gets each timer and immediate that is made
 */
export function putBelowTimers(now, made) {
  const nothing = () => {};
  const { Timeout, Immediate, async_id_symbol: key } = nodeTimers;
  Object.assign(timersBelow, {
    getLibuvNow: now, scheduleTimer: nothing, toggleTimerRef: nothing, toggleImmediateRef: nothing,
  });
  // Node gives each its number once it has the rest.
  /** @this {any} @param {number} value */
  const set = function (value) {
    defineProperty(this, key, { value, writable: true, enumerable: true, configurable: true });
    made(this);
  };
  const inherited = Object.create(Object.prototype, { [key]: { set } });
  for (const { prototype } of [Timeout, Immediate]) setPrototypeOf(prototype, inherited);
}

const { prepareStackTraceCallback } = inside("errors", { prepareStackTraceCallback: "function" });
const { setPrepareStackTraceCallback } = below("errors", { setPrepareStackTraceCallback: "function" });

/**
 * Has stacks show other frames. A function that code has put into `Error.prepareStackTrace` still gets all.
 * @param {(frames: NodeJS.CallSite[]) => NodeJS.CallSite[]} shown
 */
export function showFrames(shown) {
  const { Error: EngineError } = globalThis;
  const { prepareStackTrace } = EngineError;
  setPrepareStackTraceCallback((/** @type {any} */ realm, /** @type {any} */ error, /** @type {any} */ frames) => {
    const isTaken = EngineError.prepareStackTrace !== prepareStackTrace;
    return prepareStackTraceCallback(realm, error, isTaken ? frames : shown(frames));
  });
}

/** What packs and unpacks for `zlib`, and by what its objects have the stream that they do it for. */
export const packers = Object.values(below("zlib", { Zlib: "function", BrotliEncoder: "function" }))
  .filter((each) => typeof each.prototype?.writeSync === "function");
export const streamOf = asyncHooks.symbols?.owner_symbol;

/** Shows what an iterator of a map or of a set still goes through, and what a promise has come to. */
export const { previewEntries, getPromiseDetails } = below("util", {
  previewEntries: "function", getPromiseDetails: "function",
});

/** The names of what node calls when a target's listeners change, and what gives a class such as `onmessage`. */
export const { kNewListener, kRemoveListener, defineEventHandler } = inside("event_target", {
  kNewListener: "symbol", kRemoveListener: "symbol", defineEventHandler: "function",
});

const symbols = below("symbols", { handle_onclose: "symbol", vm_dynamic_import_default_internal: "symbol" });

/** The name of what node calls when it has closed a port. */
export const onClose = symbols.handle_onclose;

/** What is given in place of a function for `import()`, if node's loader is to import. */
export const importsByLoader = symbols.vm_dynamic_import_default_internal;

/** The options that node itself was started with. */
export const options = inside("options", { getOptionValue: "function" });

/** All child processes begin by this; the functions are called as its members. */
export const processes = inside("child_process", { ChildProcess: "function", spawnSync: "function" });

/** The form in which a thread hands on what it threw, and what the other thread makes of that. */
export const { serializeError, deserializeError } = inside("error_serdes", {
  serializeError: "function", deserializeError: "function",
});

/** Replaces a part of a text, by a context of node's own. */
export const { SideEffectFreeRegExpPrototypeSymbolReplace } = inside("util", {
  SideEffectFreeRegExpPrototypeSymbolReplace: "function",
});

/** Reads the text of a classic script. */
export const parseScript = inside("deps/acorn/acorn/dist/acorn", { parse: "function" }).parse;

/** The standard streams of a Worker, on both sides of a port, and what they send there. */
export const {
  ReadableWorkerStdio, WritableWorkerStdio, kIncrementsPortRef, kStdioWantsMoreDataCallback, kWaitingStreams,
  messageTypes,
} = inside("worker/io", {
  ReadableWorkerStdio: "function", WritableWorkerStdio: "function", kIncrementsPortRef: "symbol",
  kStdioWantsMoreDataCallback: "symbol", kWaitingStreams: "symbol", messageTypes: "object",
});

/** What a Blob has of its bytes. */
export const { isBlob, kHandle } = inside("blob", { isBlob: "function", kHandle: "symbol" });

/** Makes a loader of ES modules. Node itself asks for its loader by the second function each time. */
export const loaders = inside("modules/esm/loader", {
  createModuleLoader: "function", getOrInitializeCascadedLoader: "function",
});

/** Finds the file that a specifier stands for. Node itself loads it before what reads modules, which needs it. */
const { defaultResolve } = inside("modules/esm/resolve", { defaultResolve: "function" });

/** Reads a module, and finds its format. */
export const { defaultLoadSync } = inside("modules/esm/load", { defaultLoadSync: "function" });

/** What makes modules of what was read, by their formats. */
export const { translators } = inside("modules/esm/translators", { translators: "object" });

/** Makes the `require` of a module of CommonJS, and finds a module of node's own. */
export const { makeRequireFunction, loadBuiltinModule } = inside("modules/helpers", {
  makeRequireFunction: "function", loadBuiltinModule: "function",
});

/** Node's own class of its modules. It has lists of those that code may load. */
export const Builtins = loadBuiltinModule?.("module").constructor ?? {};
demand(Builtins, {
  allowRequireByUsers: "function", canBeRequiredByUsers: "function", setRealmAllowRequireByUsers: "function",
  map: "object",
}, "realm");

/** Whether code that is no script is an ES module. */
export const { containsModuleSyntax } = below("contextify", { containsModuleSyntax: "function" });

/** A module of node's loader. */
export const { ModuleWrap } = below("module_wrap", { ModuleWrap: "function" });

/** By which a module of CommonJS has whether its code is running. */
export const { kIsExecuting } = inside("modules/cjs/loader", { kIsExecuting: "symbol" });

/**
 * What isn't documented of an object that all code has.
 * @param {string} name
 * @param {object} owner
 * @param {readonly string[]} functions that it has to have
 * @returns {any} the object
 */
function withHidden(name, owner, functions) {
  const own = /** @type {any} */ (owner);
  lacking.push(...functions.filter((each) => typeof own[each] !== "function").map((each) => `${name}.${each}`));
  return own;
}

const ownProcess = withHidden("process", process, ["_tickCallback", "_getActiveHandles", "getActiveResourcesInfo"]);
const { _tickCallback, _getActiveHandles, getActiveResourcesInfo } = ownProcess;

/** Runs what was passed to `process.nextTick`, and all microtasks. */
export const runTicks = /** @type {() => void} */ (_tickCallback?.bind(process));

/** What keeps this thread's event loop alive. */
export const activeHandles = /** @type {() => any[]} */ (_getActiveHandles?.bind(process));

/** @returns {string[]} the names of what node has under way for this thread, except timers and immediates */
export function underWay() {
  const { immediateInfo, timeoutInfo } = realTimers;
  const { 0: timers } = timeoutInfo;
  const { [REFED_IMMEDIATES]: immediates } = immediateInfo;
  timeoutInfo[0] = 0;
  immediateInfo[REFED_IMMEDIATES] = 0;
  const names = getActiveResourcesInfo();
  timeoutInfo[0] = timers;
  immediateInfo[REFED_IMMEDIATES] = immediates;
  return names;
}

/** Finds, loads and compiles modules of CommonJS. */
export const Modules = withHidden("Module", Module, ["_findPath", "_load", "_resolveFilename"]);
withHidden("Module.prototype", Modules.prototype, ["_compile"]);
withHidden("ModuleWrap.prototype", ModuleWrap?.prototype ?? {}, ["evaluate"]);

/**
 * @param {string} specifier
 * @param {string} parentURL of the module that imports it
 * @returns {{ url: string, format: string | null | undefined }} the URL of what it stands for, and as what node takes
 * that; null or undefined: its text says
 */
export const resolveModule = (specifier, parentURL) => defaultResolve(specifier, { parentURL });

/** Compiles a module of node's own once more. */
const { compileFunction } = below("builtins", { compileFunction: "function" });

/**
 * Compiles modules of node's own once more.
 * @param {(id: string) => boolean} isOne whether a module is compiled; the others are node's
 * @param {Map<string, any>} modules what they export, by their names; others than node's may be there before
 * @param {(name: string) => any} bindingOf what of node isn't JavaScript, by its name
 * @returns {(id: string) => any} what a module exports, by its name
 */
export function compiledAnew(isOne, modules, bindingOf = internalBinding) {
  const load = (/** @type {string} */ id) => {
    if (modules.has(id)) return modules.get(id);
    if (!isOne(id)) return INSIDE.test(id) ? Builtins.map.get(id).compileForInternalLoader() : required(id);
    const module = { exports: {} };
    compileFunction(id)(module.exports, load, module, process, bindingOf, primordials);
    modules.set(id, module.exports);
    return module.exports;
  };
  return load;
}

/** The modules that `crypto.subtle` is made of, besides those of keys and of errors. */
const OF_SUBTLE = /^internal\/crypto\/(?!keys|util|hashnames|webidl|webcrypto_util|x509|random|certificate)/;

/** The names of what node does for `crypto.subtle` in threads of its own, and can do at once. */
const JOB = /Job$/;

/**
 * Makes node's `crypto.subtle` once more, by node's own code. What it did in other threads is done at once.
 * @param {(act: () => void) => void} later does something in a task of its own
 * @returns {any}
 */
export function subtleOver(later) {
  const own = internalBinding("crypto");
  const { kCryptoJobSync, kCryptoJobWebCrypto } = own;
  const jobs = Object.keys(own).filter((name) => JOB.test(name)).map((name) => [name, class extends own[name] {
    #mode;

    /** @param {number} mode @param {any[]} given */
    constructor(mode, ...given) {
      super(kCryptoJobSync, ...given);
      this.#mode = mode;
    }

    run() {
      const [problem, result] = super.run();
      if (this.#mode === kCryptoJobSync) return [problem, result];
      if (this.#mode !== kCryptoJobWebCrypto) return later(() => this.ondone(problem, result));
      const cause = "The operation failed for an operation-specific reason";
      return new Promise((resolve, reject) => later(() => (problem === undefined ? resolve(result)
        : reject(new DOMException(cause, /** @type {any} */ ({ name: "OperationError", cause: problem }))))));
    }
  }]);
  const binding = { ...own, ...Object.fromEntries(jobs) };
  const bindingOf = (/** @type {string} */ name) => (name === "crypto" ? binding : internalBinding(name));
  return compiledAnew((id) => OF_SUBTLE.test(id), new Map(), bindingOf)("internal/crypto/webcrypto").crypto.subtle;
}

if (lacking.length > 0) {
  const why = `whole programs don't run on node ${process.version.slice(1)}, which lacks ${lacking.join(", ")}. They `
    + `were tried on node ${TRIED.join(" and ")}. Modules of agents run on this node, too`;
  throw Object.assign(new Error(why), { name: REFUSED });
}
