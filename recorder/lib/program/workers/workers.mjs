// The Worker of a program. A ready thread gets what it has to run, and joins the run. One port has the Worker's
// messages, and says that it is online, has failed or has ended. What it sent before its end is delivered before
// `exit`.

import { EventEmitter } from "node:events";
import { isAbsolute, resolve } from "node:path";
import process from "node:process";
import threads from "node:worker_threads";
import { pathToFileURL } from "node:url";
import { isCalledByAgents } from "../../agent/frames.mjs";
import { defineProperty, isArray } from "../../primordials.mjs";
import { deserializeError } from "../node/internals.mjs";
import { PartInRun } from "../moves/part-in-run.mjs";
import { nodeError } from "../node/node-error.mjs";
import { sent } from "../ports/message-values.mjs";
import { KIND } from "../ports/ports.mjs";
import { demandTransferable, itemsOf } from "../ports/transfer-list.mjs";
import { sharedEnv } from "./process-env.mjs";
import { WorkersStdio, isAnyPiped, pipedOf } from "./stdio.mjs";
import { startThread } from "./thread-start.mjs";

const { SHARE_ENV } = /** @type {any} */ (threads);
const { nextTick } = /** @type {any} */ (process);
const emit = /** @type {any} */ (process).emit.bind(process);
const listenersOf = /** @type {any} */ (process).listenerCount.bind(process);
/** What the Worker of this node has: later versions have more. */
const { prototype: engine } = /** @type {any} */ (threads.Worker);

/**
 * @typedef {object} Child a worker that a thread has started
 * @property {boolean} refed whether it keeps the thread alive
 * @property {boolean} listens whether a listener of its messages does
 * @property {string} where it was started
 */

/**
 * @typedef {object} OfNode what else workers of node need of their thread
 * @property {(name: string, act: () => void) => void} later
 * @property {Map<unknown, unknown>} environment what `setEnvironmentData` has set
 * @property {Set<Child>} children workers that haven't ended
 */

/** @typedef {import("./thread-start.mjs").StartContext & OfNode} WorkerContext */

/**
 * @typedef {object} WorkerStart what a thread is to run
 * @property {string} url or the code, if it is evaluated
 * @property {boolean} isCode
 * @property {any} workerData
 * @property {string[]} argv
 * @property {string[]} execArgv
 * @property {Record<string, string | undefined>} env
 * @property {boolean} sharesEnv whether it is that of the thread that starts it
 * @property {ResourceLimits} resourceLimits
 * @property {import("./stdio.mjs").ThreadStreams} stdio
 * @property {string} threadName
 * @property {Map<unknown, unknown>} environment
 * @property {string} where it was started
 */

/** @param {string} message @param {string} code */
function typeError(message, code) {
  return nodeError(code, message, {}, TypeError);
}

/** @param {unknown} file @param {any} options @returns {string} a URL, or the code that is to be evaluated */
function urlOf(file, options) {
  if (options.eval) {
    if (typeof file === "string") return file;
    throw typeError("options.eval must be false when 'filename' is not a string", "ERR_INVALID_ARG_VALUE");
  }
  if (file instanceof URL) {
    if (/^(?:file|data):/.test(file.href)) return file.href;
    throw typeError("The URL must be of scheme file", "ERR_INVALID_URL_SCHEME");
  }
  if (typeof file !== "string") {
    throw typeError('The "filename" argument must be of type string or an instance of URL.', "ERR_INVALID_ARG_TYPE");
  }
  if (isAbsolute(file) || /^\.\.?[\\/]/.test(file)) return pathToFileURL(resolve(file)).href;
  throw typeError(`The worker script or module filename must be an absolute path or a relative path starting with `
    + `'./' or '../'.${/^(?:file:|data:)/.test(file) ? " Wrap URLs with `new URL`." : ""} Received "${file}"`,
  "ERR_WORKER_PATH");
}

/** @param {any} options @returns {string} what `threadName` is */
const nameOf = ({ name }) => (name ? name.trim() : "WorkerThread");

/** @param {any} options that node refuses if they aren't of these kinds */
function checkKinds({ argv, execArgv, env, name }) {
  const wrong = (/** @type {string} */ option, /** @type {string} */ kind) =>
    typeError(`The "options.${option}" property must be ${kind}.`, "ERR_INVALID_ARG_TYPE");
  if (execArgv && !isArray(execArgv)) throw wrong("execArgv", "an instance of Array");
  if (argv && !isArray(argv)) throw wrong("argv", "an instance of Array");
  if (env != null && typeof env !== "object" && env !== SHARE_ENV) {
    throw wrong("env", "of type object or one of undefined, null, or worker_threads.SHARE_ENV");
  }
  if (name && typeof name !== "string") throw wrong("name", "of type string");
}

/** Words of node's command line that say how errors and warnings are shown, and nothing else. */
const OF_TEXTS = new RegExp("^--(?:no-)?(?:enable-source-maps|warnings|deprecation|pending-deprecation|trace-[a-z-]+)$"
  + "|^--stack-trace-limit=\\d+$");

/** @param {any} options @param {(why: string) => never} refuse @returns {string[]} */
function execArgvOf({ execArgv }, refuse) {
  const words = itemsOf(execArgv ?? process.execArgv).map(String);
  const other = words.find((word) => !OF_TEXTS.test(word));
  if (other !== undefined) refuse(`started a Worker with ${other} in execArgv, which isn't simulated`);
  return words;
}

/** @typedef {Record<string, number>} ResourceLimits */

/** Those that a thread has by default, on any machine. No thread is held to its limits. */
const LIMITS = Object.freeze({
  maxYoungGenerationSizeMb: 48, maxOldGenerationSizeMb: 4_096, codeRangeSizeMb: 0, stackSizeMb: 4,
});
const LIMITED = Object.freeze(Object.keys(LIMITS));

/** Node gives a thread at least so much. */
const LEAST_OLD = 2;

/** @param {any} options @returns {ResourceLimits} */
function limitsOf({ resourceLimits }) {
  /** @type {ResourceLimits} */
  const limits = { ...LIMITS };
  LIMITED.forEach((name) => {
    const given = resourceLimits?.[name];
    if (typeof given !== "number") return;
    limits[name] = name === "maxOldGenerationSizeMb" ? Math.max(given, LEAST_OLD) : given;
  });
  return limits;
}

/**
 * Starts a thread.
 * @param {WorkerContext} starting
 * @param {unknown} file
 * @param {any} options
 * @param {Function} called the function that the program's code has called
 */
function started(starting, file, options, called) {
  const url = urlOf(file, options);
  checkKinds(options);
  const execArgv = execArgvOf(options, starting.refuse);
  const given = { workerData: options.workerData, environment: starting.environment };
  /** @type {any} in node these are one message, so what is in both is one thing */
  const { workerData, environment } = sent(given, starting.buffers);
  const sharesEnv = options.env === SHARE_ENV;
  const piped = pipedOf(options);
  const { port1, port2 } = isAnyPiped(piped) ? starting.ports.channel() : NO_PORTS;
  const start = {
    url, isCode: options.eval === true, workerData, argv: itemsOf(options.argv ?? []).map(String), execArgv,
    env: sharesEnv ? sharedEnv() : { ...(options.env ?? process.env) }, sharesEnv, environment,
    threadName: nameOf(options), resourceLimits: limitsOf(options), stdio: { ...piped, port: port2 },
  };
  const transferred = itemsOf(options.transferList ?? []);
  demandTransferable(transferred, starting.refuse);
  const transferList = transferred.concat(port2 ?? []);
  const thread = startThread(starting, start, transferList, called);
  return { ...thread, stdio: new WorkersStdio(starting.ports, port1, piped, options) };
}

const NO_PORTS = Object.freeze({ port1: undefined, port2: undefined });

/** @type {PartInRun<WorkerContext>} */
const part = new PartInRun();

/** The Worker that the program finds. */
class Worker extends EventEmitter {
  #agent;
  #port;
  #own;
  #isAlive = true;
  #name;
  #limits;
  #stdio;
  /** @type {((code: number | undefined) => void)[]} */
  #awaiting = [];

  /** @param {unknown} file @param {any} [options] */
  constructor(file, options = {}) {
    super();
    const { agent, port, where, stdio } = started(part.needed, file, options ?? {}, new.target);
    this.#agent = agent;
    this.#port = port;
    this.#own = { refed: true, listens: false, where };
    this.#name = nameOf(options ?? {});
    this.threadId = agent;
    this.#limits = limitsOf(options ?? {});
    this.#stdio = stdio;
    // As in node before a thread's loop begins.
    this.performance = { eventLoopUtilization: () => ({ idle: 0, active: 0, utilization: 0 }) };
    const { ports, children } = part.needed;
    children.add(this.#own);
    ports.serve(port, (envelope) => this.#take(envelope));
    const isFirst = (/** @type {unknown} */ name) => name === "message" && this.listenerCount("message") === 0;
    this.on("newListener", (/** @type {unknown} */ name) => isFirst(name) && this.#listens(true));
    this.on("removeListener", (/** @type {unknown} */ name) => isFirst(name) && this.#listens(false));
    // A tick that a run leaves has its thread replaced, so there is one only if somebody listens by now.
    if (listenersOf("worker") > 0) nextTick(() => emit("worker", this));
  }

  /**
   * @param {boolean} isListening whether the program listens to its messages from now on; if not, they wait, as in node
   */
  #listens(isListening) {
    if (!this.#isAlive) return;
    const { ports } = part.needed;
    if (isListening) ports.start(this.#port);
    else ports.stop(this.#port);
    this.#own.listens = isListening;
  }

  /** @param {unknown} value @param {unknown} [transfer] */
  postMessage(value, transfer) {
    if (this.#isAlive) part.needed.ports.send(this.#port, value, transfer, this.postMessage);
  }

  get stdin() {
    return this.#stdio.stdin;
  }

  get stdout() {
    return this.#stdio.printed("stdout", part.needed.refuse);
  }

  get stderr() {
    return this.#stdio.printed("stderr", part.needed.refuse);
  }

  get resourceLimits() {
    return this.#isAlive ? { ...this.#limits } : {};
  }

  ref() {
    this.#own.refed = true;
  }

  unref() {
    Object.assign(this.#own, { refed: false, listens: false });
  }

  /** @returns {Promise<number | undefined>} its exit code */
  terminate() {
    const { moves, threads: all, later } = part.needed;
    // In node, too, one that has just been started is ended before it begins.
    if (all.hasBegun(this.#agent)) moves.yield();
    if (!this.#isAlive) return Promise.resolve(undefined);
    /** @type {Promise<number | undefined>} */
    const ended = new Promise((done) => this.#awaiting.push(done));
    // If it has ended by itself, its port says so.
    const code = all.hasBegun(this.#agent) ? 1 : 0;
    if (all.end(this.#agent)) later("has terminated a worker", () => this.#leave(code));
    return ended;
  }

  /** @param {Worker} worker @returns {string | null} its name, while it hasn't ended */
  static nameOf(worker) {
    return worker.#isAlive ? worker.#name : null;
  }

  /** @param {number} code of its end: what was sent before comes before that */
  #leave(code) {
    const { ports } = part.needed;
    for (let left = ports.take(this.#port); left !== undefined; left = ports.take(this.#port)) {
      if (left.kind !== KIND.CLOSE) this.#take(left);
    }
    this.#gone(code);
  }

  /** @param {import("../ports/ports.mjs").Envelope} envelope */
  #take({ kind, value, isUnread }) {
    if (isUnread) this.emit("messageerror", value);
    else if (kind === KIND.MESSAGE) this.emit("message", value);
    else if (kind === KIND.ONLINE) this.emit("online");
    else if (kind === KIND.ERROR) this.emit("error", deserializeError(value));
    else if (kind === KIND.EXIT) this.#gone(value);
  }

  /** @param {number} code */
  #gone(code) {
    if (!this.#isAlive) return;
    this.#isAlive = false;
    this.threadId = -1;
    part.needed.children.delete(this.#own);
    part.needed.ports.known(this.#port).closed = true;
    this.#stdio.end();
    this.emit("exit", code);
    this.#awaiting.forEach((done) => done(code));
  }
}

/** What isn't simulated of a Worker, though later versions of node alone have some of it. */
const NOT_SIMULATED = Object.freeze([
  "cpuUsage", "getHeapSnapshot", "getHeapStatistics", "startCpuProfile", "startHeapProfile",
]);

for (const name of NOT_SIMULATED.filter((each) => each in engine)) {
  // Node itself, and what lists its members, gets none.
  const refuse = () => part.needed.refuse(`read Worker.${name}, which isn't simulated`);
  const get = () => (isCalledByAgents(get) ? refuse() : undefined);
  defineProperty(Worker.prototype, name, { configurable: true, get });
}

if ("threadName" in engine) {
  const get = /** @this {Worker} */ function () {
    return Worker.nameOf(this);
  };
  defineProperty(Worker.prototype, "threadName", { configurable: true, get });
}

const DISPOSE = /** @type {any} */ (Symbol).asyncDispose;
if (DISPOSE !== undefined && DISPOSE in engine) {
  const value = /** @this {Worker} */ async function () {
    await this.terminate();
  };
  defineProperty(Worker.prototype, DISPOSE, { configurable: true, writable: true, value });
}

/** @param {WorkerContext} given @returns {Function} the class by which the program starts workers */
export function workerClass(given) {
  part.begin(given);
  return Worker;
}
