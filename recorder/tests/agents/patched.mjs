// A program under which the language is patched. The query of the module's URL says what is patched: `what` ("nothing",
// "functions", or the names of globals), `when` ("top" of the module, by each "agent", or "one" of the globals in each
// run, until the next one) and `how` (what is patched "throws", or "lies" by answering nothing). A word of the buffer
// says how the agents end, or which of the globals is patched.

import { CASE_WORD } from "../helpers/case-word.mjs";

const { searchParams } = new URL(import.meta.url);
const [what, when, how] = ["what", "when", "how"].map((name) => searchParams.get(name));

export const setup = { agents: 3, buffers: [36, 16] };

// What the program itself, and what patches, uses.
const { Error: EngineError, Int32Array, BigInt64Array, DataView, Uint8Array } = globalThis;
const { defineProperty, getOwnPropertyDescriptor, ownKeys } = Reflect;
const { setInt16, getInt16 } = DataView.prototype;
const NAMES = what.split(",");
const OWNERS = [
  Array, Array.prototype, Object.getPrototypeOf([][Symbol.iterator]()), Map.prototype, WeakMap.prototype, Set.prototype,
  Reflect, Object, Object.prototype, Function.prototype, Number, Number.prototype, Math, String, String.prototype, JSON,
  BigInt, BigInt.prototype, Symbol, Promise, Promise.prototype, RegExp.prototype, Error, Error.prototype, Date,
  Date.prototype, ArrayBuffer, ArrayBuffer.prototype, SharedArrayBuffer.prototype, DataView.prototype,
  Object.getPrototypeOf(Int8Array), Object.getPrototypeOf(Int8Array.prototype), TextEncoder.prototype, Buffer,
];

function patchFunctions(owner) {
  const names = ownKeys(owner);
  for (let at = 0; at < names.length; at += 1) {
    const name = names[at];
    const found = getOwnPropertyDescriptor(owner, name);
    if (typeof found.value !== "function" || name === "constructor" || name === "prototype") continue;
    if (!found.configurable) continue;
    const word = typeof name === "symbol" ? "symbol" : name;
    const value = () => {
      if (how === "throws") throw new EngineError(`the patched ${word} was called`);
    };
    defineProperty(owner, name, { value, writable: true, configurable: true });
  }
}

function patchGlobal(name) {
  globalThis[name] = function Patched() {
    throw new EngineError(`the patched ${name} was called`);
  };
}

/** Which global is patched, and what it was. */
let patched = { name: "globalThis", value: globalThis };

/** Patches one of the globals, and no other one. @param {number} at which one */
function patchOnly(at) {
  if (what === "nothing") return;
  globalThis[patched.name] = patched.value;
  patched = { name: NAMES[at], value: globalThis[NAMES[at]] };
  patchGlobal(patched.name);
}

function patch() {
  if (what === "nothing") return;
  if (what !== "functions") {
    for (let at = 0; at < NAMES.length; at += 1) patchGlobal(NAMES[at]);
    return;
  }
  for (let at = 0; at < OWNERS.length; at += 1) patchFunctions(OWNERS[at]);
  // These are the program's own means.
  DataView.prototype.setInt16 = setInt16;
  DataView.prototype.getInt16 = getInt16;
}

function work(buffers, agent) {
  const words = new Int32Array(buffers[0]);
  const bigs = new BigInt64Array(buffers[1]);
  const { performance, Math: math } = kept;
  for (let time = 0; time < 3; time += 1) {
    while (Atomics.compareExchange(words, 0, 0, 1) !== 0) Atomics.wait(words, 0, 1, 5 + time);
    words[2] += agent + 1;
    words[8] = words[2];
    const view = new DataView(buffers[0], 16, 8);
    view.setInt16(0, time, true);
    if (view.getInt16(0, true) !== time) throw new EngineError("it reads another value than it wrote");
    Atomics.store(words, 0, 0);
    Atomics.notify(words, 0, 1);
  }
  Atomics.add(bigs, agent & 1, 5n);
  Atomics.compareExchange(bigs, 1, -1n, 2n ** 100n);
  // The language converts these, and calls none of its functions that can be patched.
  Atomics.or(words, "5", 0.5);
  Atomics.add(bigs, true, "0x10");
  Atomics.wait(words, "8", -1.5, "0.5");
  Atomics.notify(words, null, null);
  new Uint8Array(buffers[0])[28 + agent] = math.random() * 256;
  Atomics.store(words, 6, performance.now() * 1_000 | 0);
  try {
    Atomics.load(words, 99);
  } catch (error) {
    if (error.name !== "RangeError") throw error;
  }
}

const kept = { performance: { now: performance.now }, Math: { random: Math.random } };

if (when === "top") patch();

/** What comes after the work, in the order of the cases. */
const ENDS = [
  () => {},
  (words) => void Atomics.wait(words, 5, 0),
  () => {
    throw new EngineError("as it must be");
  },
  (words) => void Atomics.waitAsync(words, 5, 0),
  () => void setImmediate(() => {}),
];

export default function agent({ buffers, agent: number }) {
  const words = new Int32Array(buffers[0]);
  const which = words[CASE_WORD];
  if (when === "agent") patch();
  if (when === "one") patchOnly(which);
  work(buffers, number);
  return when === "one" ? undefined : ENDS[which](words);
}
