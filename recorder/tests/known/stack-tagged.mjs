// Right: the top has a number beside it that grows with each change, so that a late compareExchange fails.

import { Stack } from "./shared/stack.mjs";

export const setup = { agents: 3, buffers: [12, 24] };

const NODES = 256;

// The nodes are 1 and 2; a word for each holds the next one.
export function init(buffers) {
  new Int32Array(buffers[0]).set([1, 2, 0]);
}

export default function agent({ buffers }) {
  const stack = new Stack(new Int32Array(buffers[0]), NODES);
  const uses = new Float64Array(buffers[1]);
  const node = stack.pop();
  if (node === 0) return;
  uses[node] += 1;
  stack.push(node);
}

export const known = { endings: ["finished"] };
