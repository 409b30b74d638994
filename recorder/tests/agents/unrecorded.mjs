// What agents do that nobody sees: a function for each way. The argument names the way; of several arguments word 3 of
// the recorded buffer says which one does. Each has a call on that buffer besides, so that nothing else is amiss.

import nodeModule from "node:module";
import {
  BroadcastChannel, MessageChannel, Worker, parentPort, receiveMessageOnPort, setEnvironmentData,
} from "node:worker_threads";

const atLoading = new Int32Array(new SharedArrayBuffer(8));

/** A lock that makes its word itself. */
class OwnLock {
  #word = new Int32Array(new SharedArrayBuffer(4));

  lock() {
    while (Atomics.exchange(this.#word, 0, 1) !== 0) Atomics.wait(this.#word, 0, 1);
  }

  unlock() {
    Atomics.store(this.#word, 0, 0);
    Atomics.notify(this.#word, 0, 1);
  }
}

const lock = new OwnLock();
const ports = () => new MessageChannel();
const own = () => new Int32Array(new SharedArrayBuffer(8));
const ended = (code, data, transferList) => new Worker(code, { eval: true, workerData: data, transferList }).unref();

// What a module for WebAssembly has that exports shared memory of its own.
const SHARED = Uint8Array.of(0, 97, 115, 109, 1, 0, 0, 0, 5, 4, 1, 3, 1, 1, 7, 5, 1, 1, 109, 2, 0);

const SETS = "const { workerData: words } = require('node:worker_threads'); Atomics.store(words, 0, 1);";
const WAKES = `${SETS} Atomics.notify(words, 0);`;
const COUNTS = "const { workerData: words } = require('node:worker_threads');"
  + "for (let time = 0; time < 1000; time += 1) words[2] += 1; Atomics.store(words, 0, 1);";

/** @type {Record<string, (words: Int32Array, buffer: SharedArrayBuffer) => unknown>} */
const WAYS = {
  // Memory of the agents' own.
  lock: (words) => {
    lock.lock();
    words[1] += 1;
    lock.unlock();
  },
  calls: () => [Atomics.add(atLoading, 0, 1), Atomics.sub(atLoading, 0, 1)],
  wakes: () => Atomics.notify(atLoading, 0),
  ordinarily: () => {
    atLoading[0] = 1;
    atLoading[0] = 0;
  },
  view: () => new DataView(new SharedArrayBuffer(8)).setInt8(0, 5),
  buffer: () => Buffer.from(new SharedArrayBuffer(8)).fill(1),
  subclass: () => new (class Ring extends Int32Array {})(new SharedArrayBuffer(8)).fill(1),
  waits: () => Atomics.wait(atLoading, 0, 0),
  waitsInfinitely: () => Atomics.wait(atLoading, 0, 0, Infinity),
  waitsOften: () => {
    while (Atomics.load(atLoading, 0) === 0) Atomics.wait(atLoading, 0, 0, 50);
  },
  notEqual: () => Atomics.wait(atLoading, 0, 5),
  spins: () => {
    while (Atomics.load(atLoading, 0) === 0);
  },
  spinsOrdinarily: () => {
    while (atLoading[0] === 0);
  },
  grows: () => Atomics.load(new Int32Array(new SharedArrayBuffer(4, { maxByteLength: 8 })), 0),
  growsOrdinarily: () => {
    const words = new Int32Array(new SharedArrayBuffer(4, { maxByteLength: 8 }));
    words.buffer.grow(8);
    if (words.length !== 2) throw new Error("it hasn't grown");
  },
  wasm: () => new WebAssembly.Memory({ shared: true, initial: 1, maximum: 1 }),
  wasmExported: () => new WebAssembly.Instance(new WebAssembly.Module(SHARED)).exports,
  message: () => {
    const { port1, port2 } = ports();
    port1.postMessage(own());
    Atomics.add(receiveMessageOnPort(port2).message, 0, 1);
  },
  // What is none of it.
  sleeps: () => {
    const before = performance.now();
    const answers = [[atLoading, 0, 500], [own(), 0, "250"], [own(), 1, 5]]
      .map(([words, value, timeout]) => Atomics.wait(words, 0, value, timeout));
    const slept = performance.now() - before;
    if (answers.join() !== "timed-out,timed-out,not-equal" || slept < 750 || slept > 751) throw new Error(`${slept}`);
  },
  untouched: () => own(),
  private: () => Atomics.add(new Int32Array(8), 0, 1),
  privateWasm: () => new WebAssembly.Memory({ initial: 1, maximum: 1 }),
  slice: (_words, buffer) => new Int32Array(buffer.slice(0))[1],
  clone: (_words, buffer) => Atomics.add(new Int32Array(structuredClone(buffer)), 0, 1),
  cloneWithin: (_words, buffer) => Atomics.add(new Int32Array(structuredClone({ buffer }).buffer), 0, 1),
  worker: () => ended("0"),
  // Recorded memory in another thread.
  wakesAbroad: (words, buffer) => {
    ended(WAKES, new Int32Array(buffer));
    Atomics.wait(words, 0, 0);
  },
  countsAbroad: (words, buffer) => {
    ended(COUNTS, new Int32Array(buffer));
    Atomics.load(words, 0);
  },
  listAbroad: (words) => ended("0", { lists: [[words]] }),
  viewAbroad: (_words, buffer) => ended("0", { view: new DataView(buffer) }),
  cloneAbroad: (_words, buffer) => ended("0", structuredClone(buffer)),
  postAbroad: (words) => new Worker("0", { eval: true }).postMessage(words),
  portAbroad: (words) => ports().port1.postMessage({ words }),
  environment: (words) => setEnvironmentData("words", words),
  // Other memory, and messages, to another thread.
  ownAbroad: () => ended(SETS, own()),
  wasmAbroad: () => ended("0", new WebAssembly.Memory({ initial: 1, maximum: 1, shared: true })),
  waitsForAbroad: () => {
    ended(WAKES, atLoading);
    Atomics.wait(atLoading, 0, 0, 4_000);
  },
  portToAbroad: () => {
    const { port1, port2 } = ports();
    ended("0", { port: port2 }, [port2]);
    port1.postMessage(5);
  },
  posts: () => new Worker("0", { eval: true }).postMessage(5),
  hooks: () => nodeModule.register("data:text/javascript,"),
  // Messages and listeners that nobody serves.
  parentPosts: () => parentPort.postMessage(5),
  parentListens: () => parentPort.on("message", () => {}),
  portOn: () => ports().port1.on("message", () => {}),
  portOnce: () => ports().port1.once("message", () => {}),
  portListens: () => ports().port1.addEventListener("message", () => {}),
  portHandles: () => {
    ports().port1.onmessage = () => {};
  },
  untaken: () => ports().port1.postMessage(5),
  taken: () => {
    const { port1, port2 } = ports();
    port1.postMessage(5);
    return receiveMessageOnPort(port2);
  },
  channel: () => new BroadcastChannel("name"),
  workerListens: () => new Worker("0", { eval: true }).on("message", () => {}),
  // In spite of a catch of everything.
  caught: () => {
    try {
      parentPort.postMessage(5);
    } catch {
      // It goes on.
    }
  },
};

/** The names of all ways. */
export const NAMES = Object.keys(WAYS);

export default function agent({ buffers: [buffer], args }) {
  const words = new Int32Array(buffer);
  const way = args.length === 1 ? args[0] : args[Atomics.load(words, 3)];
  WAYS[way](words, buffer);
  Atomics.add(words, 1, 1);
}
