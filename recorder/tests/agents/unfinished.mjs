// Agents that seem to have ended. Each run is the next of these ways; agent 1 goes it, after a call.

import { readFile } from "node:fs";

const call = ({ words }) => Atomics.add(words, 0, 1);
const later = () => {};

/** Each way with its report; none if it leaves nothing undone. @type {[string | undefined, Function][]} */
export const WAYS = [
  ["returned an iterator", (own) => (function* iterate() {
    yield call(own);
  })()],
  ["returned a promise", async (own) => call(own)],
  ["returned a promise", () => ({ then: later })],
  ["goes on later, by a timer", () => void setTimeout(later, 0)],
  ["goes on later, by a timer", () => void setInterval(later, 1_000)],
  ["goes on later, by setImmediate", () => void setImmediate(later)],
  ["goes on later, by queueMicrotask", () => queueMicrotask(later)],
  ["goes on later, by process.nextTick", () => process.nextTick(later)],
  ["goes on later, by a callback", () => readFile(new URL(import.meta.url), later)],
  ["goes on later, by a promise", () => void Promise.resolve().then(later)],
  ["goes on later, by a promise", () => void (async () => {
    await undefined;
  })()],
  ["left a rejected promise, which nobody handles: Error: uncaught", () => void (async () => {
    throw new Error("uncaught");
  })()],
  ["threw Error: caught", () => {
    throw new Error("caught");
  }],
  [undefined, () => clearTimeout(setTimeout(later, 0))],
  [undefined, () => void Promise.resolve(1)],
  [undefined, () => void (async () => 1)()],
  [undefined, () => 1],
];

let runs = 0;

export const setup = { agents: 2, buffers: [4] };

export default function agent({ buffers, agent: number }) {
  const words = new Int32Array(buffers[0]);
  const [, go] = WAYS[runs];
  runs += 1;
  call({ words });
  return number === 1 ? go({ words }) : undefined;
}
