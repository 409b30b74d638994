// How a thread of a browser ends: by `close`, or by another thread. An error that nobody catches doesn't end it. The
// thread's global object gets an event, then the Worker object that started the thread, and so on. If none of them has
// a listener, the run fails.

import process from "node:process";
import { described } from "../../agent/described.mjs";
import { Ends } from "../workers/ends.mjs";
import { leaveContexts } from "../node/internals.mjs";
import { KIND } from "../ports/ports.mjs";
import { ErrorEvent, PromiseRejectionEvent } from "./targets.mjs";

/**
 * @typedef {object} Problem what goes from thread to thread about an error that no code has caught
 * @property {string} message
 * @property {string} filename
 * @property {number} lineno
 * @property {number} colno
 * @property {string} text what a failing run says about it
 * @property {boolean} isListenedTo whether it has met a listener by now
 * @property {boolean} [isOfLoading] whether the thread's script or module couldn't be loaded
 */

/** A frame of a stack with the place in a file. */
const PLACE = /((?:file|data|blob):[^\s()]+):(\d+):(\d+)\)?$/m;

/** @param {unknown} thrown @returns {Omit<Problem, "text" | "isListenedTo">} */
function placed(thrown) {
  const isError = thrown instanceof Error;
  const [, filename = "", line = "0", column = "0"] = (isError && PLACE.exec(`${thrown.stack}`)) || [];
  return { message: `Uncaught ${isError ? `${thrown}` : described(thrown)}`, filename, lineno: +line, colno: +column };
}

export class WebEnds extends Ends {
  /** @type {import("./targets.mjs").Targets | undefined} */
  targets = undefined;

  /** @type {(name: string, act: () => void) => void} does something as a task of its own */
  later = () => {};

  /** Where this thread was started; empty: it is the first one. */
  where = "";

  /** Whether the program's code has called `close`. */
  #isClosing = false;

  /** @type {Set<Promise<unknown>>} rejections that nobody handles, and for which no event has been dispatched */
  #rejections = new Set();

  /** Takes the errors that nothing else handles. */
  guard() {
    process.on("uncaughtException", (/** @type {unknown} */ thrown) => this.uncaught(thrown));
    process.on("unhandledRejection", (/** @type {unknown} */ reason, /** @type {Promise<unknown>} */ promise) => {
      this.#rejections.add(promise);
      this.later("reports a rejection", () => this.#report(reason, promise));
    });
    process.on("rejectionHandled", (/** @type {Promise<unknown>} */ promise) => void this.#rejections.delete(promise));
  }

  /** @param {unknown} thrown */
  uncaught(thrown) {
    if (this.isOver) return;
    leaveContexts();
    const text = `agent ${this.leaving.agent} threw ${described(thrown)}`;
    this.raise({ ...placed(thrown), text, isListenedTo: false }, thrown);
  }

  /** @param {unknown} thrown since the thread's script or module can't be loaded: the thread ends */
  isNotLoaded(thrown) {
    const { agent, ports } = this.leaving;
    const text = `agent ${agent} can't load its script: ${described(thrown)}`;
    ports.send(this.parentPort, { text, isListenedTo: false, isOfLoading: true }, [], undefined, KIND.ERROR);
    this.close();
  }

  /**
   * Dispatches an error at this thread's global object.
   * @param {Problem} problem
   * @param {unknown} error as the listeners get it
   * @param {boolean} [isTask] whether a task brings it, and no code of the program runs
   */
  raise(problem, error, isTask = false) {
    const { ports } = this.leaving;
    const targets = /** @type {import("./targets.mjs").Targets} */ (this.targets);
    const isListenedTo = problem.isListenedTo || targets.isListenedTo(globalThis, "error");
    const event = new ErrorEvent("error", { ...problem, error, cancelable: true });
    if (!targets.dispatch(globalThis, event, isTask)) return;
    if (this.parentPort !== undefined) {
      ports.send(this.parentPort, { ...problem, isListenedTo }, [], undefined, KIND.ERROR);
    } else if (!isListenedTo) this.fail(problem.text);
  }

  /** @param {string} text why the run fails @returns {never} */
  fail(text) {
    const { part } = this.leaving.player;
    part.enter();
    return part.end("failed", text);
  }

  /** The program's module is evaluated, or has thrown: a run is well when nothing can move any more. */
  evaluated() {
    super.evaluated();
    const { agent, player } = this.leaving;
    if (agent === 0) player.context.board.allowRest();
  }

  /** The program's code ends its thread, when the task has ended. */
  close() {
    this.#isClosing = true;
  }

  isDone() {
    if (this.#isClosing && !this.isOver) {
      this.isEvaluated = true;
      this.leave();
    }
    return this.isOver;
  }

  /** A thread goes on until it is closed. */
  liveHandles() {
    if (this.where !== "") return [`the Worker made at ${this.where}`];
    return [this.isEvaluated ? "the page" : "a top-level await that nothing settles"];
  }

  clear() {
    super.clear();
    this.#isClosing = false;
    this.#rejections = new Set();
  }

  /** @param {unknown} reason @param {Promise<unknown>} promise that was rejected */
  #report(reason, promise) {
    if (!this.#rejections.delete(promise)) return;
    const targets = /** @type {import("./targets.mjs").Targets} */ (this.targets);
    const isListenedTo = targets.isListenedTo(globalThis, "unhandledrejection");
    const event = new PromiseRejectionEvent("unhandledrejection", { promise, reason, cancelable: true });
    if (!targets.dispatch(globalThis, event) || isListenedTo) return;
    this.fail(`agent ${this.leaving.agent} threw (a rejection that nobody handles) ${described(reason)}`);
  }
}
