// What SpiderMonkey's shell gives to its scripts, over node's own Workers: threads that evaluate a text, and a mailbox
// for shared memory. Also the little else that the tests' own files need. This file is also the first one of a thread.

import { compileFunction } from "node:vm";
import { MessageChannel, Worker, receiveMessageOnPort, workerData } from "node:worker_threads";

const nothing = () => {};

/** @param {string} text thrown where no code catches it: a test must not hide that it has failed */
function fail(text) {
  queueMicrotask(() => {
    throw new Error(text);
  });
}

/** The mailbox: what a thread puts there reaches the one that started it and those that it has started. */
class Mailbox {
  #ports;
  #object;

  constructor({ object = null, port }) {
    this.#object = object;
    this.#ports = port === undefined ? [] : [port];
  }

  set(object = null) {
    this.#object = object;
    for (const port of this.#ports) port.postMessage(object);
  }

  get() {
    for (const port of this.#ports) {
      for (let got; (got = receiveMessageOnPort(port)) !== undefined;) this.#object = got.message;
    }
    return this.#object;
  }

  /** @param {string} text that a new thread evaluates: an Error ends the program, else what is thrown is printed */
  start(text) {
    const { port1, port2 } = new MessageChannel();
    this.#ports.push(port1);
    const given = { text, object: this.get(), port: port2 };
    new Worker(new URL(import.meta.url), { workerData: given, transferList: [port2] }).on("error", (error) => {
      if (error instanceof Error) throw error;
      console.log(error);
    });
  }
}

/** Keeps the thread until a script says that it is done: until then its promises are settled. */
function waitForDone(finished) {
  if (finished.done) return;
  const { port1 } = new MessageChannel();
  port1.on("message", nothing);
  Object.defineProperty(finished, "done", { set: () => port1.close() });
}

/** What the tests' own files ask for. */
const LITTLE = {
  createIsHTMLDDA: () => ({}), gcparam: nothing, getBuildConfiguration: () => false, getCoreCount: () => 8,
  helperThreadCount: () => 8, monotonicNow: () => performance.now(), options: () => "",
  quit: (code) => process.exit(code), wasmThreadsEnabled: () => true,
  sleep: (seconds) => Atomics.wait(new Int32Array(new SharedArrayBuffer(4)), 0, 0, 1_000 * seconds),
  timeout: () => fail("nothing interrupts a thread here"),
  assertEq: (actual, expected) => {
    if (!Object.is(actual, expected)) throw new Error(`got ${String(actual)}, expected ${String(expected)}`);
  },
};

/**
 * @param {{ object?: any, port?: import("node:worker_threads").MessagePort }} given to the thread when it was started
 * @returns {any} the global object of its scripts; `passes` says whether a test has said that it has passed
 */
export function shell(given = {}) {
  const mailbox = new Mailbox(given);
  const setSharedObject = (object) => mailbox.set(object);
  const getSharedObject = () => mailbox.get();
  const print = (...words) => {
    const text = words.join(" ");
    console.log(text);
    scope.passes ||= text.startsWith(" PASSED!");
    if (text.startsWith(" FAILED!")) fail(text);
  };
  const scope = Object.assign(Object.create(globalThis), {
    ...LITTLE, Atomics: Object.assign(Object.create(Atomics), { pause: nothing }), passes: false, print, waitForDone,
    evalInWorker: (text) => mailbox.start(text), getSharedArrayBuffer: getSharedObject, getSharedObject,
    setSharedArrayBuffer: setSharedObject, setSharedObject,
  });
  return Object.assign(scope, { globalThis: scope });
}

/** @param {any} scope of the script @param {string} text @param {string} filename @param {number} [lineOffset] */
export function run(scope, text, filename, lineOffset = 0) {
  compileFunction(text, [], { filename, lineOffset, contextExtensions: [scope] }).call(scope);
}

if (workerData?.text !== undefined) run(shell(workerData), workerData.text, "evalInWorker");
