// The functions and streams of `zlib`: node's own, over lower functions of the run. What node packs or unpacks in
// another thread is done in a task of the run, which has the result. So a run repeats.

import { AsyncResource } from "node:async_hooks";
import zlib from "node:zlib";
import { copying } from "../../agent/ordinary/guards.mjs";
import { doesOtherwise } from "../../processes/node-versions.mjs";
import { apply, weakGet, weakSet } from "../../primordials.mjs";
import { ONE_TRIP } from "./trips.mjs";
import { packers, streamOf } from "../node/internals.mjs";
import { replaceCall } from "./sync-calls.mjs";

/** @typedef {import("./sync-calls.mjs").SyncVersionContext} SyncVersionContext */

/** @type {WeakMap<object, { done: Function, where?: string, isBusy: boolean }>} what is known of each that packs */
const known = new WeakMap();

/** @param {SyncVersionContext} given @param {any} prototype of a class of node's */
function putOne({ later, isPlaying = () => true, here = () => undefined }, prototype) {
  const { init, reset, write, writeSync } = prototype;
  /** @this {any} @param {any[]} given */
  prototype.init = function (...given) {
    const done = AsyncResource.bind(given.find((each) => typeof each === "function"), "ZLIB");
    weakSet(known, this, { done, where: here(), isBusy: false });
    return apply(init, this, given);
  };
  /** @this {any} @param {any[]} given */
  prototype.write = function (...given) {
    if (!isPlaying()) return apply(write, this, given);
    const about = weakGet(known, this);
    const { [streamOf]: stream } = this;
    about.isBusy = true;
    return later(`has a result of ${stream.constructor.name}`, () => {
      about.isBusy = false;
      const { errored } = stream;
      // A stream that was closed meanwhile has no packer any more.
      if (stream._handle === this) apply(writeSync, this, given);
      if (stream.errored === errored) apply(about.done, this, []);
    }, about.where, ONE_TRIP);
  };
  /** @this {any} */
  prototype.reset = function () {
    if (weakGet(known, this).isBusy && doesOtherwise("resetWhileBusy")) {
      throw new Error("Cannot reset zlib stream while a write is in progress");
    }
    return apply(reset, this, []);
  };
}

/** @param {SyncVersionContext} given */
export function putPacking(given) {
  packers.forEach(({ prototype }) => putOne(given, prototype));
  const owner = /** @type {any} */ (zlib);
  // What these are given may be recorded memory, and is read before they return.
  for (const name of Object.keys(owner)) if (`${name}Sync` in owner) replaceCall(owner, name, copying(owner[name]));
}
