// Agent 0 puts numbers into a queue of two slots, and agent 1 takes them. `Model` says what is right.

import { blocked } from "sabsim/object";
import { BoundedQueue } from "./bounded-queue.mjs";

/** @type {Partial<import("sabsim").Setup>} */
export const setup = { buffers: [16] };

/** @type {import("sabsim/object").ObjectMaker<BoundedQueue>} */
export const object = ({ buffers }) => new BoundedQueue(new Int32Array(buffers[0]));

/** @type {import("sabsim/object").Operations<BoundedQueue>} */
export const operations = { put: { args: [1, 2], agents: [0] }, take: { agents: [1] } };

export class Model {
  /** @type {number[]} */
  values = [];

  /** @param {number} value */
  put(value) {
    if (this.values.length === 2) return blocked;
    this.values.push(value);
    return undefined;
  }

  take() {
    return this.values.length === 0 ? blocked : this.values.shift();
  }
}
