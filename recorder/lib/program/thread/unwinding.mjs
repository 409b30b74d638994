// How the code of a program's thread is broken off when its part in a run is over. The engine unwinds the stack as if
// it terminated the thread: no `catch` and no `finally` of the program runs. What the code has left to be done later is
// dropped. Then the thread can begin again. If node can't drop something, the thread sleeps for good.

import { createHook, executionAsyncResource } from "node:async_hooks";
import { Session } from "node:inspector";
import { promiseHooks } from "node:v8";
import { MessagePort } from "node:worker_threads";
import { restoreBuiltins } from "./restored-builtins.mjs";
import { restoreProcess } from "./install.mjs";
import { leaveContexts } from "../node/internals.mjs";
import { isDropped } from "../loop/microtasks.mjs";
import { turnLater } from "../real/real-loop.mjs";

/**
 * @typedef {object} Unwound
 * @property {() => void} stop nothing of the thread is recorded from now on, and nothing begins
 * @property {() => boolean} isSwept runs ticks and microtasks, and returns whether node has nothing else under way
 * @property {() => void} becomeIdle the thread can begin again
 * @property {() => never} parkForever the thread never goes on
 */

class Unwinding {
  /** @type {Session | undefined} by which the engine is asked to unwind */
  #session = undefined;

  /** @type {(() => void) | undefined} stops breaking off each promise's job; none, if the code isn't being left */
  #release = undefined;

  /** @type {object | undefined} by which node's loop will sweep */
  #next = undefined;

  /** @param {Unwound} unwound */
  constructor(unwound) {
    this.unwound = unwound;
    // What else node calls, such as a tick, may run code of the program, and can't be dropped. So the thread sleeps for
    // good.
    this.hook = createHook({ before: () => void (this.#isOwn(executionAsyncResource()) || unwound.parkForever()) });
  }

  /** Leaves all code of the program that runs now. */
  leave = /** @returns {never} */ () => {
    this.unwound.stop();
    // If the engine terminates a microtask, it drops the whole queue. So this hook runs first, and terminates each in
    // turn.
    this.#release ??= promiseHooks.onBefore(this.leave);
    this.hook.enable();
    this.#next ??= turnLater(this.#sweep);
    // What is unwound has left contexts of async_hooks open.
    leaveContexts();
    this.#unwind();
  };

  /** Nothing of the program is on the stack. */
  #sweep = () => {
    this.#next = undefined;
    if (!this.unwound.isSwept()) this.unwound.parkForever();
    // A promise's job was broken off meanwhile, so it sweeps once more.
    if (this.#next !== undefined) return;
    this.hook.disable();
    this.#release?.();
    this.#release = undefined;
    this.unwound.becomeIdle();
  };

  /** @param {object} resource of what node calls @returns {boolean} whether that runs no code of the program */
  #isOwn(resource) {
    return resource === this.#next || resource instanceof MessagePort || isDropped(resource);
  }

  /** @returns {never} */
  #unwind() {
    if (this.#session === undefined) {
      this.#session = new Session();
      this.#session.connect();
    }
    this.#session.post("Runtime.terminateExecution");
    // The engine looks each time round whether it was asked to unwind.
    for (;;);
  }
}

/**
 * What a thread has that is made later.
 * @typedef {object} DeferredServices
 * @property {import("../loop/loop.mjs").Loop} [loop]
 * @property {import("../workers/ends.mjs").Ends} [ends]
 * @property {{ clear: () => void }} [wasm] what modules of WebAssembly leave
 * @property {() => void} [becomeIdle] leaves nothing of the run, so that the thread can begin again
 */

/**
 * @param {import("../../agent/player.mjs").Player} player
 * @param {DeferredServices} late
 * @returns {() => never} leaves all code of the program that runs in this thread
 */
export function leaveOf({ agent, part, context }, late) {
  const { leave } = new Unwinding({
    stop: () => {
      part.isPlaying = false;
      restoreBuiltins();
      // Nothing of the program listens to what ticks find.
      restoreProcess();
      late.ends?.halt();
      late.loop?.halt();
    },
    isSwept: () => late.loop?.isSwept() ?? true,
    becomeIdle: () => late.becomeIdle?.(),
    parkForever: () => context.board.turn.parkForever(agent),
  });
  context.leave = leave;
  return leave;
}
