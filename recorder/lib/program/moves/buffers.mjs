// The shared buffers of a program's thread. A buffer that no other thread can reach concerns no other thread. When it
// is put into a message it becomes a block, before the message is sent. So what was done to it until then comes before
// all that others do. What comes out of a message is another object on the same memory. A test by writing finds which
// block it is.

import { learn } from "../../agent/ordinary/context.mjs";
import { HELD } from "../../memory/blocks.mjs";
import { FIRST_MORE } from "../../memory/more-blocks.mjs";
import {
  isGrowable, mapGet, mapSet, sharedLengthOf, slotOf, uncurried, weakGet, weakSet,
} from "../../primordials.mjs";

const { Map: EngineMap, SharedArrayBuffer: EngineShared, Uint8Array, WeakMap: EngineWeakMap } = globalThis;
const { load, store } = Atomics;
const { min } = Math;
const { prototype: memories } = /** @type {any} */ (WebAssembly.Memory);
const growMemory = uncurried(memories.grow);

/** @type {(memory: unknown) => any} the buffer of a WebAssembly.Memory, as the engine has it */
export const bufferIn = slotOf(memories, "buffer");

/** From here on are the numbers of buffers that are no blocks yet. */
const FIRST_OWN = 2 ** 24;

const NO_BLOCK = -1;

/** By how many bytes a WebAssembly.Memory can get longer that several threads reach. */
export const MOST_GROWTH = 2 ** 26;

/**
 * @typedef {object} KnownBuffer a buffer
 * @property {number} block or -1
 * @property {number} own its own number
 * @property {string} [place] where it was made
 * @property {number} [count] how many were made there before
 * @property {number} [most] how long a WebAssembly.Memory can get that has it
 */

/**
 * Whether two buffers have the same memory. No other thread writes meanwhile.
 * @param {SharedArrayBuffer} one
 * @param {SharedArrayBuffer} other
 */
function areSame(one, other) {
  const mine = new Uint8Array(one, 0, 1);
  const theirs = new Uint8Array(other, 0, 1);
  const before = load(mine, 0);
  let same = true;
  for (let bits = 0x55; bits <= 0xaa; bits += 0x55) {
    store(mine, 0, before ^ bits);
    if (load(theirs, 0) !== (before ^ bits)) same = false;
  }
  store(mine, 0, before);
  return same;
}

/** @param {SharedArrayBuffer} buffer @returns {boolean} */
function hasBytes(buffer) {
  const bytes = new Uint8Array(buffer);
  for (let byte = 0; byte < bytes.length; byte += 1) if (bytes[byte] !== 0) return true;
  return false;
}

/**
 * @typedef {object} BufferCallbacks
 * @property {import("../../agent/ordinary/context.mjs").Watching["seen"]} seen gets an ordinary access that is about to
 * be made
 * @property {(block: number, place: string, count: number) => void} named gets where the memory of a new block was
 * made, and how many were made there before
 * @property {(block: number) => void} began gets a new block that no script can have as it is
 * @property {(why: string) => never} refuse ends the run
 */

export class Buffers {
  /** @type {WeakMap<object, KnownBuffer>} */
  #known = new EngineWeakMap();

  /** @type {KnownBuffer[]} those that were made here, by their own numbers less the first one */
  #own = [];

  /** @type {Map<string | undefined, number>} how many were made at each place */
  #counts = new EngineMap();

  /** @type {WeakMap<object, SharedArrayBuffer>} the buffer of each WebAssembly.Memory, when it was looked at last */
  #memories = new EngineWeakMap();

  /** @type {(own: number, block: number) => void} called when a buffer of this thread has become a block */
  onBlock = () => {};

  /**
   * @param {import("../../memory/blocks.mjs").Blocks} blocks
   * @param {import("./control-channels.mjs").ControlChannels} control
   * @param {BufferCallbacks} shown
   */
  constructor(blocks, control, shown) {
    this.blocks = blocks;
    this.control = control;
    this.shown = shown;
    control.onItem("block", ({ block, buffer }) => this.#adopt(block, buffer));
  }

  /**
   * The program has made a buffer.
   * @param {SharedArrayBuffer} buffer
   * @param {string | undefined} place where
   * @param {number} [most] how long it can get as the buffer of a WebAssembly.Memory
   */
  made(buffer, place, most) {
    const count = mapGet(this.#counts, place) ?? 0;
    const known = { block: NO_BLOCK, own: FIRST_OWN + this.#own.length, place, count, most };
    this.#own[this.#own.length] = known;
    mapSet(this.#counts, place, count + 1);
    weakSet(this.#known, buffer, known);
  }

  /** @param {unknown} buffer @returns {number} a number by which it is known, or -1 */
  numberOf(buffer) {
    const known = weakGet(this.#known, buffer);
    if (known === undefined) return NO_BLOCK;
    return known.block < 0 ? known.own : known.block;
  }

  /** @param {number} number of a buffer @returns {number} its block, or -1 */
  blockOf(number) {
    return number < FIRST_OWN ? number : this.#own[number - FIRST_OWN].block;
  }

  /**
   * Another thread can reach a buffer from now on.
   * @param {SharedArrayBuffer} buffer
   */
  share(buffer) {
    const known = weakGet(this.#known, buffer);
    if (known === undefined || known.block >= 0) return;
    const { blocks, control, shown } = this;
    const length = sharedLengthOf(buffer);
    const place = known.place ?? "";
    if (length === 0 && isGrowable(buffer)) this.#refuseEmpty("SharedArrayBuffer that grows and", place);
    if (length === 0) return;
    const most = known.most === undefined ? undefined : min(known.most, length + MOST_GROWTH);
    const block = blocks.add(buffer, place, most);
    if (block < 0) this.#refuseMore(length, place);
    known.block = block;
    shown.named(block, place, known.count ?? 0);
    control.handAll({ kind: "block", block, buffer });
    if (block >= FIRST_MORE) shown.began(block);
    else if (hasBytes(buffer)) {
      shown.seen({ block, kind: HELD, offset: 0, length }, 0, length, true);
    }
    this.onBlock(known.own, known.block);
  }

  /** @param {any} memory a WebAssembly.Memory that another thread can reach from now on */
  shareMemory(memory) {
    const buffer = this.bufferOf(memory);
    const place = weakGet(this.#known, buffer)?.place ?? "";
    if (sharedLengthOf(buffer) === 0) this.#refuseEmpty("WebAssembly.Memory that", place);
    this.share(buffer);
  }

  /** @param {unknown} buffer @returns {number} its block, if it is one that grows; else -1 */
  growingBlock(buffer) {
    const number = this.numberOf(buffer);
    return number < 0 || !isGrowable(/** @type {object} */ (buffer)) ? NO_BLOCK : this.blockOf(number);
  }

  /**
   * Another object on the memory of a buffer, which this thread has got from structuredClone.
   * @param {SharedArrayBuffer} clone
   * @param {SharedArrayBuffer} buffer
   */
  cloned(clone, buffer) {
    const known = weakGet(this.#known, buffer);
    if (known === undefined) return;
    learn(clone, buffer);
    weakSet(this.#known, clone, known);
  }

  /**
   * The buffer of a shared WebAssembly.Memory as it is now. It is another one when a thread has made the memory longer.
   * @param {any} memory
   * @returns {SharedArrayBuffer}
   */
  bufferOf(memory) {
    const last = weakGet(this.#memories, memory) ?? bufferIn(memory);
    const block = this.blockOf(this.numberOf(last));
    if (block >= 0 && sharedLengthOf(bufferIn(memory)) < this.blocks.lengthOf(block)) growMemory(memory, 0);
    const now = bufferIn(memory);
    weakSet(this.#memories, memory, now);
    if (last !== now) this.#grown(last, now);
    return now;
  }

  /** @param {SharedArrayBuffer} before @param {SharedArrayBuffer} now the buffer of the same memory, which is longer */
  #grown(before, now) {
    const known = weakGet(this.#known, before);
    if (known === undefined) return;
    learn(before, now);
    weakSet(this.#known, now, known);
    if (known.block >= 0) this.blocks.adopt(known.block, now);
  }

  /** @param {number} agent that begins, and has to know all blocks */
  handTo(agent) {
    const { blocks, control } = this;
    control.take();
    blocks.numbers().forEach((block) => control.hand(agent, { kind: "block", block, buffer: blocks.buffers[block] }));
  }

  /**
   * A buffer has come out of a message.
   * @param {SharedArrayBuffer} buffer
   */
  received(buffer) {
    if (weakGet(this.#known, buffer) !== undefined || sharedLengthOf(buffer) === 0) return;
    this.control.take();
    const { blocks } = this;
    const numbers = blocks.numbers();
    for (let at = 0; at < numbers.length; at += 1) {
      const block = numbers[at];
      const other = blocks.buffers[block];
      if (other === undefined || blocks.lengthOf(block) !== sharedLengthOf(buffer) || !areSame(buffer, other)) continue;
      if (sharedLengthOf(other) < sharedLengthOf(buffer)) return this.#grown(other, buffer);
      learn(buffer, other);
      weakSet(this.#known, buffer, { block, own: NO_BLOCK });
      return;
    }
    this.shown.refuse("got shared memory that isn't a SharedArrayBuffer of the program, which can't be simulated");
  }

  /** Nothing of an earlier run is left. */
  clear() {
    this.#known = new EngineWeakMap();
    this.#memories = new EngineWeakMap();
    this.#own = [];
    this.#counts = new EngineMap();
    this.blocks.clear();
  }

  /** @param {unknown} value @returns {value is SharedArrayBuffer} */
  static isShared(value) {
    return value instanceof EngineShared;
  }

  /** @param {number} length of a buffer that another thread could reach @param {string} place where it was made */
  #refuseMore(length, place) {
    const where = place === "" ? "" : ` made at ${place}`;
    this.shown.refuse(`gave another thread a SharedArrayBuffer of ${length} bytes${where}: a run has no room for more `
      + "memory that several threads reach");
  }

  /**
   * @param {string} what has no bytes, though another thread could reach it
   * @param {string} place where it was made
   */
  #refuseEmpty(what, place) {
    // The first byte of a received buffer shows which memory it has.
    this.shown.refuse(`gave another thread a ${what} has no byte yet${place === "" ? "" : `, made at ${place}`}, `
      + "which isn't simulated yet");
  }

  /** @param {number} block @param {SharedArrayBuffer} buffer */
  #adopt(block, buffer) {
    if (this.blocks.buffers[block] !== undefined) return;
    this.blocks.adopt(block, buffer);
    weakSet(this.#known, buffer, { block, own: NO_BLOCK });
  }
}
