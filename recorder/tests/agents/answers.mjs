// One agent that makes every call and compares each answer with what the standard's rules say. The first argument
// names the part.

import assert from "node:assert/strict";

const INTEGERS = [Int8Array, Uint8Array, Int16Array, Uint16Array, Int32Array, Uint32Array];
const BIGS = [BigInt64Array, BigUint64Array];
const NOT_ATOMIC = [Uint8ClampedArray, Float32Array, Float64Array];

/** The value that an element of a kind reads where the whole number was written: modulo 2^bits, by ToInt8 and so on. */
function wrapped(Kind, whole) {
  const bits = Kind.BYTES_PER_ELEMENT * 8;
  const signed = Kind.name.startsWith("Int") || Kind.name.startsWith("BigInt");
  const value = signed ? BigInt.asIntN(bits, BigInt(whole)) : BigInt.asUintN(bits, BigInt(whole));
  return BIGS.includes(Kind) ? value : Number(value);
}

function accesses({ buffers }) {
  for (const Kind of [...INTEGERS, ...BIGS]) {
    const array = new Kind(buffers[0], 8, 2);
    const of = (whole) => (BIGS.includes(Kind) ? BigInt(whole) : Number(whole));
    const is = (answer, whole) => assert.equal(answer, wrapped(Kind, whole), Kind.name);
    assert.equal(Atomics.store(array, 1, of(-1)), of(-1));
    is(Atomics.load(array, 1), -1);
    is(Atomics.add(array, 1, of(2)), -1);
    is(Atomics.load(array, 1), 1);
    is(Atomics.sub(array, 1, of(3)), 1);
    is(Atomics.exchange(array, 1, of(0b1100)), -2);
    is(Atomics.and(array, 1, of(0b1010)), 0b1100);
    is(Atomics.or(array, 1, of(0b0001)), 0b1000);
    is(Atomics.xor(array, 1, of(0b1111)), 0b1001);
    is(Atomics.load(array, 1), 0b0110);
    is(Atomics.compareExchange(array, 1, of(5), of(9)), 6);
    // The expected value is compared after it is wrapped, as the element is.
    const far = 2 ** (Kind.BYTES_PER_ELEMENT * 8);
    const beyond = Kind.BYTES_PER_ELEMENT === 8 ? 2n ** 64n + 6n : of(far + 6);
    is(Atomics.compareExchange(array, 1, beyond, of(-7)), 6);
    is(Atomics.exchange(array, 1, of(0)), -7);
    is(Atomics.load(array, 0), 0);
  }
  const bytes = new Uint8Array(buffers[0]);
  assert.equal(Atomics.store(bytes, 0, 300), 300);
  assert.equal(Atomics.load(bytes, 0), 44);
  assert.ok(Object.is(Atomics.store(bytes, 0, -0), 0));
  const bigs = new BigUint64Array(buffers[0]);
  assert.equal(Atomics.store(bigs, 0, -(2n ** 127n)), -(2n ** 127n));
  assert.equal(Atomics.load(bigs, 0), 0n);
}

function errors({ buffers }) {
  const words = new Int32Array(buffers[0]);
  const bigs = new BigInt64Array(buffers[0]);
  const beyond = words.length;
  for (const index of [-1, beyond, Number.MAX_SAFE_INTEGER]) {
    assert.throws(() => Atomics.load(words, index), RangeError);
    assert.throws(() => Atomics.wait(words, index, 0), RangeError);
    assert.throws(() => Atomics.notify(words, index), RangeError);
    // The index is looked at before the operand's type, and the kind before the index.
    assert.throws(() => Atomics.store(words, index, 1n), RangeError);
  }
  for (const Kind of NOT_ATOMIC) {
    const array = new Kind(buffers[0]);
    assert.throws(() => Atomics.load(array, 0), TypeError);
    assert.throws(() => Atomics.add(array, beyond * 8, 1), TypeError);
  }
  for (const Kind of [...INTEGERS.filter((each) => each !== Int32Array), BigUint64Array, ...NOT_ATOMIC]) {
    const array = new Kind(buffers[0]);
    const zero = Kind === BigUint64Array ? 0n : 0;
    assert.throws(() => Atomics.wait(array, 0, zero), TypeError);
    assert.throws(() => Atomics.notify(array, 0), TypeError);
  }
  assert.throws(() => Atomics.add(words, 0, 1n), TypeError);
  assert.throws(() => Atomics.add(bigs, 0, 1), TypeError);
  assert.throws(() => Atomics.compareExchange(bigs, 0, 0n, 1), TypeError);
  assert.throws(() => Atomics.compareExchange(words, 0, 0n, 1), TypeError);
  assert.throws(() => Atomics.wait(words, 0, 0n), TypeError);
  assert.throws(() => Atomics.wait(bigs, 0, 0), TypeError);
  assert.deepEqual([...words], Array(beyond).fill(0));
}

function waits({ buffers, agent }) {
  const words = new Int32Array(buffers[0]);
  const bigs = new BigInt64Array(buffers[0]);
  if (agent === 0) {
    assert.equal(Atomics.wait(words, 0, 1), "not-equal");
    // Compared after ToInt32, and after the BigInt is taken modulo 2^64.
    assert.equal(Atomics.wait(words, 0, 2 ** 32, 5), "timed-out");
    assert.equal(Atomics.wait(bigs, 0, 2n ** 64n, -1), "timed-out");
    assert.equal(Atomics.wait(bigs, 0, 2n ** 63n, 0.25), "not-equal");
    assert.equal(Atomics.notify(words, 0), 0);
    // Both views are on the same bytes, so they have the same line.
    assert.equal(Atomics.wait(bigs, 1, 0n, NaN), "ok");
  } else {
    while (Atomics.notify(words, 2, Infinity) === 0);
  }
}

const PARTS = { accesses, errors, waits };

export default function agent({ args, ...rest }) {
  const [part] = args;
  return PARTS[part](rest);
}
