// Wrong: two accounts have a mutex each, and the agents lock them in orders of their own.

import { Mutex } from "./shared/mutex.mjs";

export const setup = { agents: 2, buffers: [8, 16] };

export function init(buffers) {
  new Float64Array(buffers[1]).set([5, 7]);
}

export default function agent({ buffers, agent }) {
  const words = new Int32Array(buffers[0]);
  const accounts = new Float64Array(buffers[1]);
  const [from, to] = [agent, 1 - agent];
  const [first, second] = [new Mutex(words, from), new Mutex(words, to)];
  first.lock();
  second.lock();
  accounts[from] -= 2;
  accounts[to] += 2;
  second.unlock();
  first.unlock();
}

export function check(buffers) {
  const accounts = new Float64Array(buffers[1]).join();
  if (accounts !== "5,7") throw new Error(`the accounts have ${accounts}`);
}

export const known = { endings: ["finished", "deadlock"] };
