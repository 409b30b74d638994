// A thread polls for real answers: its real loop turns until node calls back for one, or the time is up. What node
// calls then has the thread's turn, as a task has.

import { AsyncResource, createHook, executionAsyncResource } from "node:async_hooks";
import { MessagePort } from "node:worker_threads";
import { nodeTimers, packers } from "../node/internals.mjs";
import { RecorderCallback, never, turnLater, wake } from "./real-loop.mjs";

/** The classes of what is no answer: the run's timers, immediates and results, and what the recorder does later. */
const OWN = [
  nodeTimers.Timeout, nodeTimers.Immediate, RecorderCallback, MessagePort, Promise, AsyncResource, ...packers,
];

/**
 * How a look ends: something has come; nothing has, and all is as it was; or something that was waited for has gone,
 * since what closes is open until the loop has turned.
 * @typedef {"came" | "nothing" | "less"} IoPollResult
 */

/**
 * @typedef {object} IoPoll
 * @property {number} milliseconds how long it takes at most
 * @property {() => string} waitsFor what is waited for, in words
 * @property {() => void} onCome is called for each answer, before the program gets it
 * @property {(found: IoPollResult) => void} then is called by the real loop, when all that has come at once was handed
 * over
 */

export class IoPolling {
  /** @type {() => void} as in `IoPoll` */
  #onCome = () => {};

  /** @type {(found: IoPollResult) => void} as in `IoPoll` */
  #then = () => {};

  /**
   * @type {RecorderCallback | undefined} the end of the look; undefined: something has come, or nothing is looked for
   */
  #guard = undefined;

  // Only while a thread looks, since it makes promises slower.
  #hook = createHook({ before: () => this.#before() });

  /** What is done while an answer is held back isn't done on its behalf. */
  #outside = new AsyncResource("sabsim");

  /** @param {IoPoll} look begins; the caller returns to the real loop then */
  begin({ onCome, milliseconds, waitsFor, then }) {
    this.#then = then;
    const before = waitsFor();
    const guard = wake(() => this.#end("nothing"), milliseconds);
    this.#guard = guard;
    turnLater(() => {
      if (this.#guard === guard && waitsFor() !== before) this.#end("less");
    });
    this.watch(onCome);
  }

  /** @param {() => void} onCome as in `IoPoll`; answers may come until this is closed */
  watch(onCome) {
    this.#onCome = onCome;
    this.#hook.enable();
  }

  /** Nothing is looked for any more. */
  close() {
    this.#hook.disable();
    never(this.#guard);
    this.#guard = undefined;
  }

  #before() {
    if (!this.#isAnswer(executionAsyncResource())) return;
    if (this.#guard !== undefined) {
      never(this.#guard);
      this.#guard = undefined;
      turnLater(() => this.#end("came"));
    }
    this.#outside.runInAsyncScope(this.#onCome);
  }

  /** @param {IoPollResult} found */
  #end(found) {
    this.close();
    this.#then(found);
  }

  /**
   * @param {any} resource of what node calls
   * @returns {boolean} whether that is an answer; if not, it is a tick, or what was done on behalf of an answer
   */
  #isAnswer(resource) {
    for (let at = 0; at < OWN.length; at += 1) {
      if (resource instanceof OWN[at]) return false;
    }
    return !("callback" in resource && "args" in resource);
  }
}
