// The Worker of a program for browsers: a thread by the URL of a script or a module, with the interface of the DOM.
// What the thread has sent before `terminate`, and no thread has got yet, is lost. It runs what a `blob:` URL has when
// the Worker is made, also if the URL is revoked meanwhile.

import { put } from "../../primordials.mjs";
import { PartInRun } from "../moves/part-in-run.mjs";
import { KIND } from "../ports/ports.mjs";
import { startThread } from "../workers/thread-start.mjs";
import { eventOfMessage } from "./web-ports.mjs";
import { ErrorEvent, putHandler, putMethods } from "./targets.mjs";

const { TypeError: EngineTypeError, URL: EngineURL } = globalThis;
const EngineException = DOMException;
const EngineTarget = EventTarget;
const EngineEvent = Event;
const TYPES = Object.freeze(["classic", "module"]);

/**
 * @typedef {object} WebStart what a thread is to run
 * @property {string} url
 * @property {string} type of the script, as a Worker has it
 * @property {string} name
 * @property {import("./blobs.mjs").Content} [content] of a `blob:` URL
 * @property {string} where it was started
 */

/**
 * @typedef {object} WebWorkerContext what else workers of browsers need of their thread
 * @property {import("./web-ends.mjs").WebEnds} ends
 * @property {import("./targets.mjs").Targets} targets
 * @property {import("./blobs.mjs").Blobs} blobs
 * @property {string} base the URL from which others are taken
 */

/** @typedef {import("../workers/thread-start.mjs").StartContext & WebWorkerContext} WebStarting */

/** @type {PartInRun<WebStarting>} */
const part = new PartInRun();

/** @param {unknown} given @returns {string} the URL of a script, as the thread's script takes it */
function urlOf(given) {
  const { base, refuse } = part.needed;
  let href;
  try {
    ({ href } = new EngineURL(`${given}`, base));
  } catch {
    throw new EngineException(`Failed to construct 'Worker': '${given}' is not a valid URL.`, "SyntaxError");
  }
  if (!/^(?:file|data|blob):/.test(href)) refuse(`started a Worker of ${href}, which isn't simulated`);
  return href;
}

/** The Worker that the program finds. */
class Worker extends EngineTarget {
  #agent;
  #port;
  #isAlive = true;

  /** @param {unknown} url @param {any} [options] */
  constructor(url, options) {
    if (arguments.length === 0) throw new EngineTypeError("Failed to construct 'Worker': 1 argument required.");
    super();
    const { type = "classic", name = "" } = options ?? {};
    if (!TYPES.includes(type)) {
      throw new EngineTypeError(`Failed to construct 'Worker': '${type}' is no valid enum value of type WorkerType.`);
    }
    const { ports, blobs } = part.needed;
    const href = urlOf(url);
    const start = { url: href, type, name: `${name}`, content: blobs.at(href) };
    const { agent, port } = startThread(part.needed, start, [], new.target);
    blobs.handTo(agent);
    this.#agent = agent;
    this.#port = port;
    ports.serve(port, (envelope) => this.#take(envelope));
  }

  /** @param {unknown} value @param {unknown} [transfer] */
  postMessage(value, transfer) {
    if (this.#isAlive) part.needed.ports.send(this.#port, value, transfer, this.postMessage);
  }

  terminate() {
    const { moves, threads, ports } = part.needed;
    // One that has just been started is ended before it begins.
    if (threads.hasBegun(this.#agent)) moves.yield();
    if (!this.#isAlive) return;
    this.#isAlive = false;
    ports.known(this.#port).closed = true;
    threads.end(this.#agent);
  }

  /** @param {import("../ports/ports.mjs").Envelope} envelope */
  #take(envelope) {
    if (!this.#isAlive) return;
    if (envelope.kind === KIND.MESSAGE) part.needed.targets.dispatch(this, eventOfMessage(envelope));
    else if (envelope.kind === KIND.ERROR) this.#fails(envelope.value);
    else if (envelope.kind === KIND.EXIT) this.#isAlive = false;
  }

  /** @param {import("./web-ends.mjs").Problem} problem that nobody has caught in the thread */
  #fails(problem) {
    const { targets, ends } = part.needed;
    const isListenedTo = problem.isListenedTo || targets.isListenedTo(this, "error");
    if (problem.isOfLoading) {
      targets.dispatch(this, new EngineEvent("error"));
      if (!isListenedTo) ends.fail(problem.text);
      return;
    }
    const event = new ErrorEvent("error", { ...problem, cancelable: true });
    if (targets.dispatch(this, event)) ends.raise({ ...problem, isListenedTo }, null, true);
  }
}
put(Worker.prototype, Symbol.toStringTag, "Worker");

/** @param {WebStarting} given @returns {Function} the class by which the program starts workers */
export function webWorkerClass(given) {
  part.begin(given);
  return Worker;
}

/** @param {import("./targets.mjs").Targets} targets by which events reach workers: once in a thread */
export function serveWorkers(targets) {
  putMethods(Worker.prototype, targets);
  for (const type of ["message", "messageerror", "error"]) putHandler(Worker.prototype, type, targets);
}
