// Agents that read and write few bytes ordinarily, in many ways, between calls of Atomics of several sizes. What they
// do is drawn from the run's seed; the first argument names how they keep out of each other's way, or that they don't.

import { Dice } from "../helpers/scripts.mjs";

export const setup = { agents: 3, buffers: [24, 16] };

const WHOLE = [Int8Array, Uint8Array, Int16Array, Uint16Array, Int32Array, Uint32Array, BigInt64Array, BigUint64Array];
const KINDS = [...WHOLE, Uint8ClampedArray, Float32Array, Float64Array];
const TIMEOUTS = [undefined, 0, 1, 5, 100];

/** Ordinary accesses of a typed array, each on a line of its own. */
const READS = [
  ({ view, at }) => view[at],
  ({ view, at }) => view.at(at),
  ({ view }) => view[view.length - 1],
  ({ view, at }) => view.slice(at),
  ({ view, value }) => view.indexOf(value),
  ({ view, value }) => view.lastIndexOf(value),
  ({ view, value }) => view.includes(value),
  ({ view }) => view.join(),
  ({ view }) => [...view],
  ({ view, at }) => view.subarray(at).find(() => false),
  ({ view, value }) => view.map(() => value),
  ({ view }) => Reflect.get(view, 0),
];
const WRITES = [
  ({ view, at, value }) => { view[at] = value; },
  ({ view, value }) => { view[0] = value; },
  ({ view, at }) => { view[at] += view[at]; },
  ({ view, value }) => view.fill(value),
  ({ view, at, value }) => view.fill(value, at),
  ({ view, at, value }) => view.subarray(at).fill(value, 0, 1),
  ({ view, at, value }) => view.set([value], at),
  ({ view, at }) => view.set(view.subarray(at)),
  ({ view, at }) => view.set(view.slice(at)),
  ({ view, at }) => view.copyWithin(0, at),
  ({ view, at }) => view.copyWithin(at, 0),
  ({ view }) => view.reverse(),
  ({ view }) => view.sort(),
];

/** Ordinary accesses at any byte. */
const AT_BYTES = [
  ({ data, room }) => data.getUint8(room(1)),
  ({ data, room }) => data.getInt16(room(2), true),
  ({ data, room }) => data.getUint32(room(4)),
  ({ data, room }) => data.getFloat64(room(8), true),
  ({ data, room }) => data.setInt8(room(1), -1),
  ({ data, room }) => data.setUint16(room(2), 0x0102),
  ({ data, room }) => data.setFloat32(room(4), 1.5, true),
  ({ data, room }) => data.setBigInt64(room(8), 1n),
  ({ bytes, room }) => bytes.readUInt16LE(room(2)),
  ({ bytes, room }) => bytes.toString("hex", room(1)),
  ({ bytes, room }) => bytes.writeInt32BE(0x0f0e, room(4)),
  ({ bytes, room }) => bytes.write("ab", room(2)),
  ({ bytes, room }) => new TextEncoder().encodeInto("cd", new Uint8Array(bytes.buffer, room(2), 2)),
];

const ATOMICS = [
  ({ view, at }) => Atomics.load(view, at),
  ({ view, at, value }) => Atomics.store(view, at, value),
  ({ view, at, value }) => Atomics.exchange(view, at, value),
  ({ view, at, value }) => Atomics.add(view, at, value),
  ({ view, at, value }) => Atomics.xor(view, at, value),
  // Some find what they expect, and some don't.
  ({ view, at, value }) => Atomics.compareExchange(view, at, value, value),
  ({ view, at, value }) => Atomics.compareExchange(view, at, Atomics.load(view, at), value),
  ({ view, at, value }) => Atomics.compareExchange(view, at, further(Atomics.load(view, at)), value),
];

/** Another number of the same element, of whatever size. */
const further = (value) => (typeof value === "bigint" ? value + 2n ** 64n : value + 2 ** 32);

/** A view of a few elements that lie anywhere in one of the buffers, one of its indices, and a value for it. */
function someView(dice, buffers, kinds) {
  const Kind = dice.of(kinds);
  const buffer = dice.of(buffers);
  const room = buffer.byteLength / Kind.BYTES_PER_ELEMENT;
  const first = dice.below(room);
  const length = 1 + dice.below(Math.min(room - first, 4));
  const view = new Kind(buffer, first * Kind.BYTES_PER_ELEMENT, length);
  const value = dice.of([0, 1, 3, 255]);
  return { view, at: dice.below(length), value: Kind.name.startsWith("Big") ? BigInt(value) : value };
}

function accessOrdinarily(dice, buffers) {
  if (dice.percent(30)) {
    const buffer = dice.of(buffers);
    const room = (size) => dice.below(buffer.byteLength - size + 1);
    dice.of(AT_BYTES)({ data: new DataView(buffer), bytes: Buffer.from(buffer), room });
  } else {
    dice.of(dice.percent(50) ? READS : WRITES)(someView(dice, buffers, KINDS));
  }
}

/** A wait or a notify is at one of few places, so that they meet. */
function waitOrNotify(dice, buffer) {
  const Kind = dice.of([Int32Array, Int32Array, BigInt64Array]);
  const words = new Kind(buffer);
  const index = dice.below(2);
  if (dice.percent(60)) Atomics.notify(words, index, dice.of([undefined, 1]));
  else Atomics.wait(words, index, Atomics.load(words, index), dice.of(TIMEOUTS));
}

function callAtomics(dice, buffers, kinds) {
  if (dice.percent(30)) waitOrNotify(dice, dice.of(buffers));
  else dice.of(ATOMICS)(someView(dice, buffers, kinds));
}

function withLock(words, body) {
  while (Atomics.exchange(words, 0, 1) !== 0) Atomics.wait(words, 0, 1);
  body();
  Atomics.store(words, 0, 0);
  Atomics.notify(words, 0, 1);
}

/** Ways to learn of those who came by before, and to let the next ones know. */
const PLACES = [
  (words) => Atomics.add(words, 0, 1),
  (words) => Atomics.notify(words, 2),
  (words) => Atomics.wait(words, 2, 1),
];

const STEPS = {
  /** Nobody keeps out of anybody's way. */
  wild: (dice, buffers) => {
    if (dice.percent(30)) accessOrdinarily(dice, buffers);
    else callAtomics(dice, buffers, WHOLE);
  },
  /** Nearly all is atomic, and of one size. */
  words: (dice, buffers) => {
    if (dice.percent(12)) accessOrdinarily(dice, buffers);
    else callAtomics(dice, buffers, [Int32Array, Uint32Array]);
  },
  /** There is a lock, and it is hardly ever forgotten. */
  locked: (dice, [data, lock]) => {
    const body = () => {
      for (let left = 1 + dice.below(3); left > 0; left -= 1) accessOrdinarily(dice, [data]);
      if (dice.percent(30)) dice.of(ATOMICS)(someView(dice, [data], WHOLE));
    };
    if (dice.percent(98)) withLock(new Int32Array(lock), body);
    else body();
  },
  /** Before and after its accesses each agent comes by a place where others may have been. */
  passing: (dice, [data, places]) => {
    const words = new Int32Array(places);
    const comeBy = dice.of(PLACES);
    comeBy(words);
    accessOrdinarily(dice, [data]);
    comeBy(words);
  },
};

export default function agent({ buffers, args }) {
  const dice = new Dice(Math.floor(Math.random() * 2 ** 32));
  const step = STEPS[args[0]];
  for (let left = 2 + dice.below(6); left > 0; left -= 1) step(dice, buffers);
}
