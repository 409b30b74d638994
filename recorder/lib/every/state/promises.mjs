// What a promise has come to. One that is pending can't be shown: what waits for it is kept by the engine.

import { CantShow } from "./object-kinds.mjs";

const FULFILLED = 1;
const REJECTED = 2;

/**
 * Node's own function that shows what a promise has come to.
 * @type {(promise: Promise<unknown>) => unknown[]}
 */
let detailsOf = () => [];

/** @param {typeof detailsOf} getPromiseDetails */
export function knowPromises(getPromiseDetails) {
  detailsOf = getPromiseDetails;
}

/** @param {Promise<unknown>} promise @returns {{ isRejected: boolean, value: unknown }} @throws {CantShow} */
export function settledOf(promise) {
  const { 0: state, 1: value } = detailsOf(promise);
  if (state !== FULFILLED && state !== REJECTED) throw new CantShow("a promise that is pending");
  return { isRejected: state === REJECTED, value };
}
