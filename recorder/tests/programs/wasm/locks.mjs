// Functions in WebAssembly for threads that count: a mutex of three states, by wait and notify, and a counter behind.
import { ATOMIC, code, moduleOf } from "./assembled.mjs";

const { get, set, i32, i64, call, load, store, atomic, loop, when, again, add, or, ne, drop } = code;
const exchange = (/** @type {number} */ from, /** @type {number} */ to) =>
  [...get(0), ...i32(from), ...i32(to), ...atomic(ATOMIC.CMPXCHG)];
const count = [...get(0), ...get(0), ...load(4), ...i32(1), ...add, ...store(4)];

/** @param {number} asleep under which state a thread sleeps: 2 is right @param {number} woken how many unlock wakes */
export const locks = (asleep, woken = 1) => moduleOf([
  { name: "lock", type: "i>", locals: 1, body: [
    ...exchange(0, 1), ...set(1), ...get(1),
    ...when(...loop(
      ...get(1), ...i32(2), 0x46, ...exchange(1, 2), ...i32(0), ...ne, ...or,
      ...when(...get(0), ...i32(asleep), ...i64(-1), ...atomic(ATOMIC.WAIT32), ...drop),
      ...exchange(0, 2), ...set(1), ...get(1), ...again(0),
    )),
  ] },
  { name: "unlock", type: "i>", body: [
    ...get(0), ...i32(1), ...atomic(ATOMIC.SUB), ...i32(1), ...ne,
    ...when(...get(0), ...i32(0), ...atomic(ATOMIC.STORE), ...get(0), ...i32(woken), ...atomic(ATOMIC.NOTIFY), ...drop),
  ] },
  { name: "count", type: "i>", body: count },
  { name: "countLocked", type: "i>", body: [...get(0), ...call(0), ...get(0), ...call(2), ...get(0), ...call(1)] },
]);
