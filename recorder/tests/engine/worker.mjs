// A worker makes one agent's calls with the engine's own `Atomics`, one at a time, as its parent asks.
//
// It first sends `{ stateFile }`, where its thread's state can be read. It gets `{ views }`, the typed arrays that its
// calls are on, and then `{ method, view, operands }` for each call, and replies to each with `{ answer }`, or with
// `{ threw, message }` and the error's name.

import { parentPort as portOfParent, workerData } from "node:worker_threads";
import { ownStateFile } from "./asleep.mjs";
import { STAGE } from "./stage.mjs";

// A worker has one.
const parentPort = /** @type {import("node:worker_threads").MessagePort} */ (portOfParent);

/** How far the call is that was sent last. */
const stage = workerData.stage;

/** @type {ArrayBufferView[]} */
let views = [];

parentPort.postMessage({ stateFile: ownStateFile() });

parentPort.on("message", (order) => {
  if (order.views) {
    views = order.views;
    return;
  }
  const answer = made(order);
  Atomics.store(stage, 0, STAGE.answered);
  parentPort.postMessage(answer);
});

/** @typedef {(array: ArrayBufferView, ...operands: (number | bigint)[]) => number | bigint | string} Call */

/** @param {{ method: string, view: number, operands: (number | bigint)[] }} order */
function made({ method, view, operands }) {
  const array = views[view];
  // What each function takes is for the engine to check.
  const call = /** @type {Record<string, Call>} */ (/** @type {unknown} */ (Atomics))[method];
  Atomics.store(stage, 0, STAGE.called);
  try {
    return { answer: call(array, ...operands) };
  } catch (error) {
    const { name, message } = /** @type {Error} */ (error);
    return { threw: name, message };
  }
}
