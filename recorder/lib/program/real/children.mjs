// The child processes of a thread: they are real ones. What they print goes where the program's own output goes, and
// standard input is empty. None of them is left when the thread's part in a run is over.

import { apply } from "../../primordials.mjs";
import { processes } from "../node/internals.mjs";
import { wake } from "./real-loop.mjs";

/** The machine's clock. What the program finds under this name has the run's time. */
const machineTime = performance.now.bind(performance);

/** How long it may take until all are gone. */
const MOST_MILLISECONDS = 150;

const STDERR = 2;
const OWN_STREAMS = ["stdin", "stdout", "stderr"];

/** @typedef {import("../../memory/pids.mjs").Pids} Pids */

export class Children {
  /** @type {Set<any>} those that were begun in this run */
  #begun = new Set();

  /** Is called before one begins, while the program's code is known. */
  onBegin = () => {};

  /**
   * @param {Pids} pids of those that live, so that other threads can end them
   * @param {() => boolean} isShown whether what the program prints is shown
   */
  constructor(pids, isShown) {
    this.pids = pids;
    this.isShown = isShown;
  }

  /** Replaces how processes begin. Call it once in a thread. */
  install() {
    const { ChildProcess: { prototype }, spawnSync } = processes;
    const { spawn } = prototype;
    const begin = (/** @type {any} */ child, /** @type {any} */ options) => this.#begin(spawn, child, options);
    prototype.spawn = function (/** @type {any} */ options) {
      return begin(this, options);
    };
    processes.spawnSync = (/** @type {any} */ options) => {
      this.onBegin();
      const stdio = options.stdio.map((/** @type {any} */ each) => this.#redirected(each));
      return spawnSync({ ...options, stdio });
    };
  }

  /**
   * Ends all. Nothing of the program's code hears of it.
   * @param {(areEnded: boolean) => void} then is called when all are gone, or when that takes too long
   */
  end(then) {
    const all = [...this.#begun];
    this.#begun.clear();
    for (const child of all) silence(child);
    const last = machineTime() + MOST_MILLISECONDS;
    const look = () => {
      if (all.every(({ _handle: handle }) => handle === null)) return then(true);
      if (machineTime() > last) return then(false);
      wake(look, 1);
    };
    look();
  }

  /** @param {Function} spawn node's @param {any} child @param {any} options */
  #begin(spawn, child, options) {
    this.onBegin();
    const { stdio = "pipe" } = options;
    const streams = typeof stdio === "string" ? Array(OWN_STREAMS.length).fill(stdio) : stdio;
    const given = Array.isArray(streams) ? streams.map((each, at) => this.#streamFor(each, at)) : streams;
    const problem = apply(spawn, child, [{ ...options, stdio: given }]);
    const { _handle: handle, pid } = child;
    if (handle === null || pid === undefined) return problem;
    this.#begun.add(child);
    this.pids.add(pid);
    const { onexit } = handle;
    handle.onexit = (/** @type {any[]} */ ...all) => {
      this.pids.remove(pid);
      apply(onexit, handle, all);
    };
    return problem;
  }

  /** @param {any} stream as the program gives it @param {number} at its number @returns {any} as node gets it */
  #streamFor(stream, at) {
    const file = stream === "inherit" ? at : typeof stream?.fd === "number" ? stream.fd : stream;
    return isOwnStream(file) ? this.#outputOf(file) ?? "ignore" : stream;
  }

  /** @param {any} stream as node has it @returns {any} */
  #redirected(stream) {
    if (!["inherit", "fd"].includes(stream.type) || !isOwnStream(stream.fd)) return stream;
    const file = this.#outputOf(stream.fd);
    return file === undefined ? { type: "ignore" } : { type: "fd", fd: file };
  }

  /** @param {number} file that the process has by itself @returns {number | undefined} where a child prints; nowhere */
  #outputOf(file) {
    return file > 0 && this.isShown() ? STDERR : undefined;
  }
}

/** @param {unknown} file @returns {boolean} whether it is standard input, output or error */
const isOwnStream = (file) => typeof file === "number" && file >= 0 && file < OWN_STREAMS.length;

/** @param {any} child that is ended: neither it nor its streams call the program's code */
function silence(child) {
  const streams = [...(child.stdio ?? []), ...OWN_STREAMS.map((name) => child[name])].filter(Boolean);
  for (const each of [child, child.channel, ...new Set(streams)]) each?.removeAllListeners?.();
  for (const stream of new Set(streams)) {
    stream.on("error", () => {});
    stream.destroy();
  }
  if (child.connected) child.disconnect();
  child.on("error", () => {});
  if (child._handle !== null) child.kill("SIGKILL");
}
