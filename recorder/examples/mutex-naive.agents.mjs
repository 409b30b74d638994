// Three agents count together, each time under the naive mutex.

import { NaiveMutex } from "./mutex-naive.mjs";
import { countTogether } from "./count-together.mjs";

/** @type {import("sabsim").Setup} */
export const setup = { agents: 3, buffers: [12], names: { STATE: 0, BELL: 1, COUNT: 2 } };

/** @type {import("sabsim").Agent} */
export default function agent({ buffers, args }) {
  const mutex = new NaiveMutex(new Int32Array(buffers[0], 0, 2));
  countTogether(mutex, new Int32Array(buffers[0], 8, 1), Number(args[0] ?? 3));
}
