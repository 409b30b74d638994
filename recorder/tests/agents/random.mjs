// Agents that make random calls on views of all kinds, right ones and wrong ones. What they call depends on their
// number and on what they were answered, so each schedule has calls of its own.

import { CALLS } from "../../script/kinds.mjs";

export const setup = { agents: 4, buffers: [32, 16], noBlock: [2] };

const KINDS = [
  Int8Array, Uint8Array, Uint8ClampedArray, Int16Array, Uint16Array, Int32Array, Uint32Array, Float32Array,
  Float64Array, BigInt64Array, BigUint64Array,
];
const NUMBERS = [0, 1, -1, 2, 255, -128, 2 ** 31, 2 ** 32, -(2 ** 32) - 1, Number.MAX_SAFE_INTEGER];
const BIGS = [0n, 1n, -1n, 2n ** 63n, -(2n ** 63n), 2n ** 64n, -(2n ** 127n), 2n ** 127n - 1n];
const CALLS_MADE = 40;

/** The numbers of a linear congruential generator, mixed with the answers of the agent's calls. */
class Dice {
  constructor(start) {
    this.state = start;
  }

  below(count) {
    this.state = (Math.imul(this.state, 1_664_525) + 1_013_904_223) >>> 0;
    return Math.floor((this.state / 2 ** 32) * count);
  }

  of(items) {
    return items[this.below(items.length)];
  }

  take(answer) {
    for (const letter of String(answer)) this.state = (Math.imul(this.state, 31) + letter.charCodeAt(0)) >>> 0;
  }
}

/** A wait or a notify is on one of few places, so that they meet. */
function randomCall(dice, buffers) {
  if (dice.below(3) === 0) {
    const big = dice.below(4) === 0;
    const view = big ? new BigInt64Array(dice.of(buffers)) : new Int32Array(dice.of(buffers));
    const zero = big ? 0n : 0;
    if (dice.below(2) === 0) return ["notify", view, dice.below(2) * 2, ...dice.of([[], [1], [2], [0], [-1]])];
    return ["wait", view, dice.below(2) * 2, dice.of([zero, zero, BigInt(5), 5]), ...dice.of([[], [10], [0.5], [-1]])];
  }
  const Kind = dice.of(KINDS);
  const bytes = Kind.BYTES_PER_ELEMENT;
  const view = dice.below(2) === 0 ? new Kind(dice.of(buffers)) : new Kind(dice.of(buffers), 8, 8 / bytes);
  const operands = dice.below(8) === 0 || Kind.name.startsWith("Big") ? BIGS : NUMBERS;
  const { name, operands: count } = dice.of(CALLS);
  const index = dice.of([0, 0, 1, view.length - 1, view.length, -1]);
  const rest = name === "notify" ? [] : Array.from({ length: count }, () => dice.of(operands));
  return [name, view, index, ...rest, ...(name === "wait" ? [dice.below(9)] : [])];
}

export default function agent({ buffers, agent: number, args }) {
  const dice = new Dice(Number(args[0] ?? 1) * 16 + number);
  for (let made = 0; made < CALLS_MADE; made += 1) {
    const [name, ...rest] = randomCall(dice, buffers);
    try {
      dice.take(Atomics[name](...rest));
    } catch (error) {
      if (!(error instanceof TypeError || error instanceof RangeError)) throw error;
      dice.take(error.name);
    }
  }
}
