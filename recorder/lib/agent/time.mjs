// The clocks and the random numbers of an agent: its run's time in place of the machine's, and the seed's row in place
// of chance. So the same seed gives the same run, and deadlines agree with the answers of waits.

import crypto from "node:crypto";
import process from "node:process";
import { Random } from "../memory/random.mjs";
import { apply, construct, likeEngine, proxyOf, put, tagOf, uncurried } from "../primordials.mjs";

const { Date: EngineDate, Int32Array, Uint8Array, BigInt: big, RangeError, TypeError } = globalThis;
const { floor } = Math;
const { isView } = ArrayBuffer;
const { isSafeInteger } = Number;
const bytesFrom = Buffer.alloc;
const hexOf = uncurried(Buffer.prototype.toString);
const textOf = uncurried(EngineDate.prototype.toString);

/** The date at which each run begins: the first moment of the year 2000, UTC. */
const EPOCH = 946_684_800_000;

/** Agents' rows of random numbers have the numbers from here on. Their choices have lower ones. */
const CHANCE = 2 ** 16;

/**
 * Gives a run's time to this realm's clocks.
 * @param {(isPlain: boolean) => number} now in milliseconds from the run's beginning; whether what the clock returns
 * goes by the time alone
 */
export function simulateTime(now) {
  const today = (isPlain = true) => floor(EPOCH + now(isPlain));
  /** @type {typeof Date} */
  const Simulated = proxyOf(EngineDate, {
    construct(target, given, made) {
      const parts = given.length === 0 ? [today(made === Simulated)] : given;
      return construct(target, parts, made === Simulated ? target : made);
    },
    apply: () => textOf(new EngineDate(today())),
  });
  put(EngineDate, "now", likeEngine(() => today(), EngineDate.now));
  put(EngineDate.prototype, "constructor", Simulated);
  put(globalThis, "Date", Simulated);
  put(performance, "now", likeEngine(() => now(true), performance.now));
  put(performance, "timeOrigin", EPOCH);
  simulateProcess(now);
}

/** @param {(isPlain: boolean) => number} now */
function simulateProcess(now) {
  const nanoseconds = () => big(floor(now(true) * 1e6));
  /** @type {(before?: [number, number]) => [number, number]} */
  const hrtime = (before) => {
    const time = floor(now(before === undefined) * 1e6);
    const seconds = floor(time / 1e9);
    const rest = time % 1e9;
    if (before === undefined) return [seconds, rest];
    const borrowed = rest < before[1];
    return [seconds - before[0] - (borrowed ? 1 : 0), rest - before[1] + (borrowed ? 1e9 : 0)];
  };
  put(hrtime, "bigint", likeEngine(nanoseconds, process.hrtime.bigint));
  put(process, "hrtime", likeEngine(hrtime, process.hrtime));
  put(process, "uptime", likeEngine(() => now(true) / 1_000, process.uptime));
}

/** @typedef {{ size: number, isSigned: boolean }} RandomElements the numbers that random bytes are */

/** @type {RandomElements} */
const PLAIN_BYTES = { size: 1, isSigned: false };

/** @type {Record<string, true>} */
const SIGNED = /** @type {any} */ ({ __proto__: null, Int8Array: true, Int16Array: true, Int32Array: true });

/** @param {any} view @returns {RandomElements} */
const elementsOf = (view) => ({ size: view.BYTES_PER_ELEMENT ?? 1, isSigned: SIGNED[tagOf(view)] === true });

/** A row of random numbers that an agent's code draws from. */
export class Chance {
  constructor() {
    /** Which agent it is. */
    this.agent = 0;
    this.random = new Random(new Int32Array(4));
  }

  /** @param {number} seed of the run that begins */
  begin(seed) {
    this.random.seedApart(seed, CHANCE + this.agent);
  }

  /**
   * @param {string} [_what] is made of it besides the number itself
   * @returns {number} from 0, below 1, with 53 bits
   */
  fraction(_what) {
    const high = this.random.next() >>> 5;
    const low = this.random.next() >>> 6;
    return (high * 2 ** 26 + low) / 2 ** 53;
  }

  /**
   * Fills bytes.
   * @param {Uint8Array} bytes
   * @param {RandomElements} _elements that they are
   */
  fill(bytes, _elements) {
    for (let at = 0; at < bytes.length; at += 1) bytes[at] = this.random.next() >>> 24;
  }
}

/**
 * Lets this realm's random numbers be those of a row.
 * @param {Chance} chance
 */
export function simulateChance(chance) {
  put(Math, "random", likeEngine(() => chance.fraction(), Math.random));
  const { webcrypto } = crypto;
  const fillView = webcrypto.getRandomValues;
  const getRandomValues = likeEngine((/** @type {ArrayBufferView} */ view) => {
    // The engine's own makes the checks, and its numbers are overwritten.
    apply(fillView, webcrypto, [view]);
    chance.fill(new Uint8Array(view.buffer, view.byteOffset, view.byteLength), elementsOf(view));
    return view;
  }, fillView);
  const randomUUID = likeEngine(() => uuidOf(chance), crypto.randomUUID);
  for (const owner of [webcrypto, crypto]) {
    put(owner, "getRandomValues", getRandomValues);
    put(owner, "randomUUID", randomUUID);
  }
  simulateNodeChance(chance);
}

/**
 * Those of node's module alone.
 * @param {Chance} chance
 */
function simulateNodeChance(chance) {
  const { randomBytes, randomInt, randomFillSync } = crypto;
  put(crypto, "randomBytes", likeEngine((/** @type {number} */ size, /** @type {unknown} */ done) => {
    if (done !== undefined) return apply(randomBytes, crypto, [size, done]);
    const bytes = bytesFrom(size);
    chance.fill(bytes, PLAIN_BYTES);
    return bytes;
  }, randomBytes));
  put(crypto, "randomFillSync", likeEngine((/** @type {any} */ view, offset = 0, size = undefined) => {
    apply(randomFillSync, crypto, size === undefined ? [view, offset] : [view, offset, size]);
    const each = isView(view) ? /** @type {any} */ (view).BYTES_PER_ELEMENT ?? 1 : 1;
    const { buffer, byteOffset, byteLength } = isView(view) ? view : new Uint8Array(view);
    const length = size === undefined ? byteLength - offset * each : size * each;
    chance.fill(new Uint8Array(buffer, byteOffset + offset * each, length), elementsOf(view));
    return view;
  }, randomFillSync));
  /** @type {(least: number, most?: any, done?: unknown) => unknown} */
  const randomIntOf = (least, most, done) => {
    const from = typeof most === "number" ? least : 0;
    const to = typeof most === "number" ? most : least;
    const callback = typeof most === "function" ? most : done;
    if (callback !== undefined) return apply(randomInt, crypto, [from, to, callback]);
    if (!isSafeInteger(from) || !isSafeInteger(to)) throw new TypeError("the bounds must be safe integers");
    if (to <= from || to - from >= 2 ** 48) throw new RangeError("the bounds are out of order, or too far apart");
    return from + floor(chance.fraction(`from ${from} to ${to}`) * (to - from));
  };
  put(crypto, "randomInt", likeEngine(randomIntOf, randomInt));
  const { now } = Date;
  const { randomUUIDv7 } = /** @type {any} */ (crypto);
  // Later versions of node have it.
  if (randomUUIDv7 !== undefined) put(crypto, "randomUUIDv7", likeEngine(() => uuidOf(chance, now()), randomUUIDv7));
}

/**
 * @param {Chance} chance
 * @param {number} [time] in milliseconds
 * @returns {string} a UUID of version 4; of version 7, if it begins with a time
 */
function uuidOf(chance, time) {
  const bytes = bytesFrom(16);
  chance.fill(bytes, PLAIN_BYTES);
  if (time !== undefined) {
    for (let at = 5, left = time; at >= 0; at -= 1, left = floor(left / 256)) bytes[at] = left % 256;
  }
  bytes[6] = (bytes[6] & 0x0f) | (time === undefined ? 0x40 : 0x70);
  bytes[8] = (bytes[8] & 0x3f) | 0x80;
  /** @param {number} from @param {number} to */
  const part = (from, to) => hexOf(bytes, "hex", from, to);
  return `${part(0, 4)}-${part(4, 6)}-${part(6, 8)}-${part(8, 10)}-${part(10, 16)}`;
}
