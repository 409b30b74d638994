// Wrong: the number beside the top has two bits: after four changes it is the same, so a late compareExchange succeeds.

import { Stack, TOP } from "./shared/stack.mjs";

export const setup = { agents: 2, buffers: [16, 4] };

const NODES = 4;
const NUMBERS = 4;
const IS_MINE = 1;

// The nodes are 1, 2 and 3; a word for each holds the next one.
export function init(buffers) {
  new Int32Array(buffers[0]).set([1, 2, 3, 0]);
}

export default function agent({ buffers, agent }) {
  const stack = new Stack(new Int32Array(buffers[0]), NODES, NUMBERS);
  if (agent === 0) {
    stack.pop();
    return;
  }
  const mine = new Uint8Array(buffers[1]);
  const [first, ...others] = [stack.pop(), stack.pop(), stack.pop()];
  stack.push(first);
  for (const node of others) if (node !== 0) mine[node] = IS_MINE;
}

export function check(buffers) {
  const node = new Int32Array(buffers[0])[TOP] % NODES;
  if (new Uint8Array(buffers[1])[node] === IS_MINE) throw new Error(`node ${node} is on the stack, and an agent's`);
}

export const known = { endings: ["finished", "check"], within: 250 };
