// Node's own Worker class (`internal/worker`) and the first file of its threads (`internal/main/worker_thread`). What
// stands in for the rest: the C++ handle of a thread, the streams of its output, and what it does before its program.

import { EventEmitter } from "node:events";
import * as url from "node:url";
import * as threads from "node:worker_threads";
import { internals } from "./internals.mjs";

const FILES = ["internal/assert", "internal/worker", "internal/worker/messaging", "internal/main/worker_thread"];
const FIRST_FILE = new URL("thread.mjs", import.meta.url);

/** The C++ handle of a thread: a Worker whose first file is node's own. */
class Handle {
  constructor() {
    const { port1, port2 } = new threads.MessageChannel();
    this.messagePort = port1;
    this.thread = new threads.Worker(FIRST_FILE, { workerData: port2, transferList: [port2] });
    this.threadId = this.thread.threadId;
    this.thread.on("exit", (code) => this.onexit?.(code, null, null));
  }
  startThread() {}
  stopThread() { this.thread.terminate(); }
  ref() { this.thread.ref(); }
  unref() { this.thread.unref(); }
}

/** @template It @param {It} it @returns {It} */
const same = (it) => it;

/** A stream of a thread, to which nothing is written. */
class Stdio extends EventEmitter {
  pipe() {}
  push() {}
}

/** A port keeps its thread alive as long as anything listens to its worker. */
function setupPortReferencing(port, worker) {
  port.unref();
  worker.on("newListener", (name) => name === "message" && port.ref());
  worker.on("removeListener", () => worker.listenerCount("message") === 0 && port.unref());
}

/** The `process` that node's files see: what they set stays in it. */
function processOf(own) {
  const { process } = globalThis;
  const get = (_, key) => {
    if (key in own) return own[key];
    return typeof process[key] === "function" ? process[key].bind(process) : process[key];
  };
  return new Proxy(own, { get });
}

const MODULES = {
  "internal/worker/io": {
    MessageChannel: threads.MessageChannel, receiveMessageOnPort: threads.receiveMessageOnPort, drainMessagePort() {},
    messageTypes: { UP_AND_RUNNING: 0, ERROR_MESSAGE: 1, LOAD_SCRIPT: 2 }, setupPortReferencing,
    ReadableWorkerStdio: Stdio, kPort: Symbol("kPort"),
  },
  "internal/error_serdes": { serializeError: same, deserializeError: same },
  "internal/util": {
    kEmptyObject: {}, constructSharedArrayBuffer: (bytes) => new SharedArrayBuffer(bytes),
    getCWDURL: () => new URL("file:///"),
  },
  "internal/perf/event_loop_utilization": {},
  "internal/options": { getOptionValue() {} },
  "internal/v8/startup_snapshot": { throwIfBuildingSnapshot() {} },
  "internal/url": { ...url, isURL: (it) => it instanceof URL },
  "worker_threads": { ...threads },
};

/**
 * Node's own `require`, and the `process` that its files see.
 * @param {object} given
 * @param {string[]} [given.files] more of node's files that are loaded
 * @param {Record<string, any>} [given.modules] more that stands in for others
 * @param {Record<string, any>} [given.own] what is different in `process`
 */
export function nodeOf({ files = [], modules = {}, own = {} }) {
  const process = processOf({ stdin: { push() {} }, ...own });
  const worker = {
    ...threads, ownsProcessState: threads.isMainThread, Worker: Handle, resourceLimits: [], kTotalResourceLimitCount: 4,
    getEnvMessagePort: () => threads.workerData,
  };
  const require = internals({
    files: [...FILES, ...files],
    bindings: { worker, errors: { exitCodes: {} }, url: { canParse: URL.canParse } },
    process,
    modules: { ...MODULES, ...modules },
  });
  return { require, process };
}
