// A worker whose messages are awaited one after the other.

import { MessageChannel, Worker, receiveMessageOnPort } from "node:worker_threads";
import { firstStack } from "./first-stack.mjs";
import { workerLimits } from "./garbage.mjs";
import { compiledModules } from "./own-modules.cjs";

// How long to wait for an end. A call of native code, such as one that waits for another program, can't be broken off:
// the thread stays until that call returns.
const STOP_MILLISECONDS = 1_000;

/**
 * What a worker died of, in words.
 * @param {unknown} thrown
 * @returns {string}
 */
function causeOf(thrown) {
  try {
    return thrown instanceof Error ? String(thrown) : `it threw ${String(thrown)}`;
  } catch {
    return "it threw a value that can't be shown";
  }
}

const NO_PORTS = { port1: undefined, port2: undefined };

/** @typedef {{ message?: any, ended?: string }} QueuedMessage a message, or why there is none any more */

export class Thread {
  /**
   * @param {URL} file
   * @param {object} workerData
   * @param {{ ownPort?: boolean, execArgv?: string[], isFirst?: boolean }} options words of node's command line. With
   * `ownPort` messages go by a port that is `workerData.port` there: code that shares the worker, and its `parentPort`
   * with it, can't listen in or answer. With `isFirst` its stack is as large as that of a process's first thread
   */
  constructor(file, workerData, { ownPort = false, execArgv, isFirst = false } = {}) {
    const { port1, port2 } = ownPort ? new MessageChannel() : NO_PORTS;
    const own = { workerData: { ...workerData, port: port2 }, transferList: port2 === undefined ? [] : [port2] };
    const words = execArgv === undefined ? {} : { execArgv };
    const resourceLimits = { ...workerLimits(), ...(isFirst ? firstStack(process.execArgv) : {}) };
    this.worker = new Worker(file, { ...(ownPort ? own : { workerData }), ...words, resourceLimits });
    /** Where messages come from and go to. */
    this.port = port1 ?? this.worker;
    /** @type {Set<string>} the URLs of the recorder's modules that it was given */
    this.given = new Set();
    /** @type {QueuedMessage[]} */
    this.inbox = [];
    /** @type {((item: QueuedMessage) => void) | undefined} */
    this.waiting = undefined;
    /** @type {string | undefined} why it has ended, if it has */
    this.ended = undefined;
    /** @type {(why: string) => void} */
    this.onEnd = () => {};
    /** @type {string | undefined} */
    let died;
    this.port.on("message", (message) => this.#put({ message }));
    this.worker.on("error", (error) => {
      died = causeOf(error);
    });
    this.worker.on("exit", (code) => {
      if (port1 !== undefined) this.#drain(port1);
      this.ended = died ?? `it ended by itself, with exit code ${code}`;
      this.onEnd(this.ended);
      this.#put({ ended: this.ended });
    });
  }

  /** @param {object} message */
  post(message) {
    this.port.postMessage(message);
  }

  /**
   * Makes a worker evaluate what a module of the recorder imports, before it is given the module itself.
   * @param {URL} root
   */
  giveAhead(root) {
    const ahead = compiledModules(root).slice(0, -1);
    for (const { url } of ahead) this.given.add(url);
    this.post({ ahead });
  }

  /**
   * Gives a worker that awaits its data a module of the recorder, and what else this needs. It calls its `main`.
   * @param {URL} root
   * @param {object} [data]
   */
  give(root, data) {
    this.post({ modules: compiledModules(root).filter(({ url }) => !this.given.has(url)), ...data });
  }

  /** While it waits for work, it doesn't keep the process from its end. */
  letGo() {
    this.worker.unref();
    this.port.unref();
  }

  /** It keeps the process from its end again. */
  hold() {
    this.worker.ref();
    this.port.ref();
  }

  /**
   * The next message; one of `ended` if there is none any more.
   * @returns {Promise<QueuedMessage>}
   */
  next() {
    const first = this.inbox.shift();
    if (first !== undefined) return Promise.resolve(first);
    if (this.ended !== undefined) return Promise.resolve({ ended: this.ended });
    return new Promise((done) => {
      this.waiting = done;
    });
  }

  /**
   * Ends the worker. Nothing more is reported about it. A worker that native code holds is left alone after a while,
   * and ends later: neither it nor its port keeps the process from its end then.
   * @param {number} [milliseconds] how long to wait for its end at most
   * @returns {Promise<boolean>} whether it has ended
   */
  async stop(milliseconds = STOP_MILLISECONDS) {
    this.onEnd = () => {};
    let timer;
    const late = new Promise((done) => {
      timer = setTimeout(done, milliseconds, false);
    });
    const ended = await Promise.race([this.worker.terminate().then(() => true), late]);
    clearTimeout(timer);
    if (!ended) this.letGo();
    return ended;
  }

  /**
   * Takes what was sent before the end, and closes the port.
   * @param {import("node:worker_threads").MessagePort} port
   */
  #drain(port) {
    for (let item = receiveMessageOnPort(port); item !== undefined; item = receiveMessageOnPort(port)) this.#put(item);
    port.close();
  }

  /** @param {QueuedMessage} item */
  #put(item) {
    if (this.waiting === undefined) {
      this.inbox.push(item);
      return;
    }
    const done = this.waiting;
    this.waiting = undefined;
    done(item);
  }
}

const OWN_WORKER = new URL("./own-worker.cjs", import.meta.url);

/**
 * @type {Set<string>} options of the engine and of the whole process: no thread takes them, and each has them anyway
 */
const ofProcess = new Set();

/** @param {any} error @param {string} word @returns {boolean} whether it is such an option, as node says */
const isOfProcess = ({ code, message }, word) => code === "ERR_WORKER_INVALID_EXEC_ARGV"
  && process.execArgv.includes(word) && `${message.replace(/^.* flags: /, "")}, `.includes(`${word}, `);

/**
 * @param {string[]} [execArgv] words of node's command line; those of this process if it isn't given
 * @param {boolean} [isFirst] whether it is to be a program's first thread
 * @returns {Thread} one that awaits its data, with the recorder's modules that it is to evaluate
 */
function newThread(execArgv, isFirst = false) {
  const words = execArgv?.filter((word) => !ofProcess.has(word));
  try {
    return new Thread(OWN_WORKER, {}, { ownPort: true, execArgv: words, isFirst });
  } catch (error) {
    const found = words?.filter((word) => isOfProcess(error, word)) ?? [];
    if (found.length === 0) throw error;
    for (const word of found) ofProcess.add(word);
    return newThread(words, isFirst);
  }
}

/** @type {(KeptThread & { isFirst: boolean })[]} those that a process has begun while it loads its modules */
const begun = [];

/**
 * @param {URL} root the module that a worker will be given
 * @param {number} count how many begin now
 * @param {string[]} [execArgv] as above: if it is given, the first of them is to be a program's first thread
 */
export function beginThreads(root, count, execArgv) {
  for (let each = 0; each < count; each += 1) {
    const isFirst = execArgv !== undefined && each === 0;
    begun.push({ root, isFirst, thread: newThread(execArgv, isFirst) });
  }
}

/** @param {URL} root the module of those that get now what it imports */
export function giveAhead(root) {
  for (const each of begun) if (each.root.href === root.href) each.thread.giveAhead(root);
}

/** So long a worker is kept that no one needs. */
const KEPT_MILLISECONDS = 2_000;

/** No more are kept at a time. */
const MOST_KEPT = 4;

/** @typedef {{ root: URL, thread: Thread }} KeptThread */

/** @type {KeptThread[]} those that have done their work, and await more of it; the last one is the first here */
const kept = [];

/** @param {KeptThread} one that is ended, unless it was taken */
function endKept(one) {
  const at = kept.indexOf(one);
  if (at < 0) return;
  kept.splice(at, 1);
  void one.thread.stop();
}

/**
 * Keeps a worker that has done its work for the next that needs one. It has none of the agents' code.
 * @param {URL} root the module that it was given
 * @param {Thread} thread
 */
export function keepThread(root, thread) {
  const one = { root, thread };
  kept.unshift(one);
  thread.letGo();
  if (kept.length > MOST_KEPT) endKept(kept[MOST_KEPT]);
  setTimeout(endKept, KEPT_MILLISECONDS, one).unref();
}

/**
 * @param {URL} root
 * @returns {Thread | undefined} the last one kept of those that were given this module
 */
export function keptThread(root) {
  const at = kept.findIndex((one) => one.root.href === root.href && one.thread.ended === undefined);
  if (at < 0) return undefined;
  const [{ thread }] = kept.splice(at, 1);
  thread.hold();
  return thread;
}

/**
 * @param {URL} root the module that it will be given
 * @param {string[]} [execArgv] as above
 * @param {boolean} [isFirst] as above
 * @returns {Thread} one that has begun, or begins
 */
export function begunThread(root, execArgv, isFirst = false) {
  const at = begun.findIndex((each) => each.root.href === root.href && each.isFirst === isFirst);
  return at < 0 ? newThread(execArgv, isFirst) : begun.splice(at, 1)[0].thread;
}
