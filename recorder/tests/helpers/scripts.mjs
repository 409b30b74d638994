// Small scripts from a seed, in which agents meet: a few views that overlap, a few places, waits and notifies on them.

/** @typedef {import("../../schedule/turns.mjs").ScheduleMove} ScheduleMove */
/** @typedef {Omit<import("../../script/text.mjs").View, "length"> & { length: number | null }} View null: to the end */
/** @typedef {(string | number)[]} Call its function, its view, its index, and what else it takes */

/**
 * @typedef {object} Script as JSON has it: with blocks, or in the older form with the bytes of the only one
 * @property {number[]} [blocks]
 * @property {number} [bytes]
 * @property {Omit<View, "block">[]} views
 * @property {{ block: boolean, calls: Call[] }[]} agents
 * @property {ScheduleMove[]} schedule
 */

const ATOMIC = ["Int8", "Uint8", "Int16", "Uint16", "Int32", "Uint32", "BigInt64", "BigUint64"];
const OTHER = ["Uint8Clamped", "Float32", "Float64"];
/** @type {Record<string, number>} */
const SIZES = {
  Int8: 1, Uint8: 1, Uint8Clamped: 1, Int16: 2, Uint16: 2, Int32: 4, Uint32: 4, Float32: 4, Float64: 8, BigInt64: 8,
  BigUint64: 8,
};
const NUMBERS = [1, 2, 3, -1, 127, 255, -129, 65_536, 2 ** 31, -(2 ** 31) - 1, 2 ** 32, 2 ** 32 + 1, 2 ** 53 - 1];
const BIGINTS = [1n, 2n, -1n, 2n ** 31n, 2n ** 63n, -(2n ** 63n) - 1n, 2n ** 64n, 2n ** 127n - 1n, -(2n ** 127n)];
const BAD_INDICES = [-1, 2, 7, 100, 2 ** 32, -(2 ** 53) + 1];
const TIMEOUTS = [0, 1, 50, -1, 1_000_000_000];
const COUNTS = [0, 1, 1, 2, 3, -1, 2 ** 53 - 1];
const ACCESSES = ["load", "store", "exchange", "add", "sub", "and", "or", "xor", "compareExchange"];

/**
 * How many operands a call has behind its index, if it isn't one.
 * @type {Record<string, number>}
 */
const OPERANDS = { load: 0, compareExchange: 2 };

/** Numbers that a seed fixes (mulberry32). */
export class Dice {
  #state;

  /** @param {number} seed */
  constructor(seed) {
    this.#state = seed >>> 0;
  }

  /**
   * A whole number from 0 to below `count`.
   * @param {number} count
   */
  below(count) {
    this.#state = (this.#state + 0x6d2b79f5) >>> 0;
    let mixed = Math.imul(this.#state ^ (this.#state >>> 15), this.#state | 1);
    mixed ^= mixed + Math.imul(mixed ^ (mixed >>> 7), mixed | 61);
    return ((mixed ^ (mixed >>> 14)) >>> 0) % count;
  }

  /**
   * Whether something happens that happens in so many of 100 cases.
   * @param {number} share
   */
  percent(share) {
    return this.below(100) < share;
  }

  /**
   * One of a list.
   * @template Item
   * @param {readonly Item[]} list
   */
  of(list) {
    return list[this.below(list.length)];
  }

  /**
   * A list of `least` to `most` elements.
   * @template Item
   * @param {number} least
   * @param {number} most
   * @param {(position: number) => Item} make
   */
  list(least, most, make) {
    return Array.from({ length: least + this.below(most - least + 1) }, (_, position) => make(position));
  }
}

/**
 * The script of a seed. All its moves are of agents that are there.
 * @param {number} seed
 * @returns {Script}
 */
export function generatedScript(seed) {
  const dice = new Dice(seed);
  const isOld = dice.percent(25);
  const blocks = [dice.of([16, 24, 32]), ...(isOld ? [] : dice.list(0, 3, () => dice.of([16, 16, 24, 12, 4, 0])))];
  const views = [
    waitableView("w", "Int32", blocks),
    waitableView("b", "BigInt64", blocks),
    ...dice.list(1, 4, (position) => view(dice, `v${position}`, blocks)),
  ];
  const agents = dice.list(2, 5, () => ({
    block: dice.percent(90),
    calls: dice.list(4, 10, () => call(dice, views)),
  }));
  const schedule = dice.list(15, 30, () => moves(dice, agents.length)).flat();
  if (!isOld) return { blocks, views, agents, schedule };
  return { bytes: blocks[0], views: views.map(({ block, ...parts }) => parts), agents, schedule };
}

/**
 * A script of a seed in which some agents do nothing but wait in one line, with timeouts that end in every order, and
 * one wakes the oldest now and then.
 * @param {number} seed
 * @returns {Script}
 */
export function timedScript(seed) {
  const dice = new Dice(seed);
  const waker = 3 + dice.below(3);
  const waiter = { block: true, calls: Array(5).fill(["wait", "w", 0, 0, 1]) };
  const agents = [...Array(waker).fill(waiter), { block: true, calls: Array(8).fill(["notify", "w", 0, 1]) }];
  const schedule = dice.list(30, 40, /** @returns {ScheduleMove[]} */ () => {
    const agent = dice.below(waker);
    return dice.percent(55) ? [agent, agent, agent] : dice.percent(25) ? [waker, waker, waker] : [{ timeout: agent }];
  });
  const views = [{ name: "w", kind: "Int32", offset: 0, length: null }];
  return { bytes: 4, views, agents, schedule: schedule.flat() };
}

/**
 * A view at the beginning of block 0, on which agents meet.
 * @param {string} name
 * @param {string} kind
 * @param {number[]} blocks
 * @returns {View}
 */
function waitableView(name, kind, blocks) {
  return { name, kind, block: 0, offset: 0, length: Math.floor(blocks[0] / SIZES[kind]) };
}

/** @param {Dice} dice @param {string} name @param {number[]} blocks @returns {View} */
function view(dice, name, blocks) {
  const kind = dice.percent(85) ? dice.of(ATOMIC) : dice.of(OTHER);
  const block = dice.below(blocks.length);
  const room = Math.floor(blocks[block] / SIZES[kind]);
  const first = dice.below(Math.min(room, 2) + 1);
  const isWhole = blocks[block] % SIZES[kind] === 0 && dice.percent(60);
  const length = isWhole ? null : room - first - dice.below(Math.min(room - first, 1) + 1);
  return { name, kind, block, offset: first * SIZES[kind], length };
}

/** @param {Dice} dice @param {View[]} views @returns {Call} */
function call(dice, views) {
  if (dice.percent(65)) {
    const waitable = views.filter(({ kind }) => kind === "Int32" || kind === "BigInt64");
    return dice.percent(45) ? wait(dice, met(dice, waitable, views)) : notify(dice, met(dice, waitable, views));
  }
  const { name, kind } = dice.of(views);
  const method = dice.of(ACCESSES);
  const count = OPERANDS[method] ?? 1;
  return [method, name, index(dice), ...Array.from({ length: count }, () => operand(dice, kind, 40))];
}

/**
 * Mostly a view on which agents meet.
 * @param {Dice} dice
 * @param {View[]} waitable
 * @param {View[]} views
 */
function met(dice, waitable, views) {
  return dice.percent(75) ? waitable[0] : dice.percent(85) ? dice.of(waitable) : dice.of(views);
}

/** @param {Dice} dice @param {View} view @returns {Call} */
function wait(dice, { name, kind }) {
  return ["wait", name, index(dice), operand(dice, kind, 85), ...(dice.percent(65) ? [dice.of(TIMEOUTS)] : [])];
}

/** @param {Dice} dice @param {View} view @returns {Call} */
function notify(dice, { name }) {
  return ["notify", name, index(dice), ...(dice.percent(60) ? [dice.of(COUNTS)] : [])];
}

/** @param {Dice} dice */
function index(dice) {
  return dice.percent(95) ? Number(dice.percent(20)) : dice.of(BAD_INDICES);
}

/**
 * An operand, mostly one that fits the kind, and in so many of 100 cases 0.
 * @param {Dice} dice
 * @param {string} kind
 * @param {number} zeros
 */
function operand(dice, kind, zeros) {
  const isBig = kind.startsWith("Big") !== dice.percent(4);
  if (dice.percent(zeros)) return isBig ? "0" : 0;
  return isBig ? `${dice.of(BIGINTS)}` : dice.of(NUMBERS);
}

/**
 * Some steps of one agent, or the end of a wait's time.
 * @param {Dice} dice
 * @param {number} agentCount
 */
function moves(dice, agentCount) {
  const agent = dice.below(agentCount);
  return dice.percent(18) ? [{ timeout: agent }] : dice.list(1, 6, () => agent);
}
