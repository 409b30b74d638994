// Every agent puts and takes numbers, as it chooses.

import { SequenceQueue } from "./sequence-queue.mjs";

/** @type {Partial<import("sabsim").Setup>} */
export const setup = { buffers: [24] };

/** @type {import("sabsim").WithBuffers} */
export const init = ([buffer]) => SequenceQueue.fill(new Int32Array(buffer));

/** @type {import("sabsim/object").ObjectMaker<SequenceQueue>} */
export const object = ({ buffers }) => new SequenceQueue(new Int32Array(buffers[0]));

/** @type {import("sabsim/object").Operations<SequenceQueue>} */
export const operations = { tryPut: [1, 2], tryTake: [] };
