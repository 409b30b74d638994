// Three agents count together, each time under the mutex of three states.

import { ThreeStateMutex } from "./mutex-three-state.mjs";
import { countTogether } from "./count-together.mjs";

/** @type {import("sabsim").Setup} */
export const setup = { agents: 3, buffers: [8] };

/** @type {import("sabsim").Agent} */
export default function agent({ buffers, args }) {
  const mutex = new ThreeStateMutex(new Int32Array(buffers[0], 0, 1));
  countTogether(mutex, new Int32Array(buffers[0], 4, 1), Number(args[0] ?? 3));
}
