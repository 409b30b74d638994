// One agent calls eight times, and the other serves.

import { Calls } from "./late-notify.mjs";
import { callAndServe } from "./call-and-serve.mjs";

/** @type {import("sabsim").Setup} */
export const setup = { agents: 2, buffers: [12], names: { JOB: 0, DONE: 1, ANSWER: 2 } };

/** @type {import("sabsim").Agent} */
export default function agent({ buffers, agent, args }) {
  callAndServe(new Calls(new Int32Array(buffers[0])), agent, Number(args[0] ?? 8));
}
