// Which functions the type `Agent` takes: only synchronous ones.

import type { Agent } from "../recorder.mjs";

export const returnsNothing: Agent = ({ buffers: [buffer] }) => {
  new Int32Array(buffer!).fill(1);
};

export const returnsANumber: Agent = ({ buffers: [buffer], agent }) => Atomics.add(new Int32Array(buffer!), 0, agent);

// @ts-expect-error: what comes behind its first `await` is made by nobody
export const isAsync: Agent = async ({ buffers: [buffer] }) => {
  Atomics.add(new Int32Array(buffer!), 0, 1);
};

// @ts-expect-error: what comes behind is made by nobody
export const returnsAPromise: Agent = () => Promise.resolve();

// @ts-expect-error: nobody runs its code
export const isGenerator: Agent = function* agent() {
  yield 1;
};
