// The blocks of a program. The program makes their memory during its run, and a buffer becomes a block when two threads
// can reach it. The last block is for messages: sending one and receiving it are acts on the waiters of a place there.
// So what was done before it was sent happens before what is done after it is received.

import { KINDS } from "../../script/kinds.mjs";
import { SCRIPT_LIMITS } from "../../script/limits.mjs";
import { isGrowable, mostLengthOf, sharedLengthOf } from "../primordials.mjs";
import { placeNumber } from "./known-places.mjs";
import { FIRST_MORE, MoreBlocks } from "./more-blocks.mjs";

const { Int32Array, Uint8Array, SharedArrayBuffer } = globalThis;

/**
 * The block for messages, how many bytes it has, and how many places. Few runs have more than a quarter of these:
 * others have only as many.
 */
export const MESSAGES = SCRIPT_LIMITS.blocks - 1;
export const MESSAGE_BYTES = SCRIPT_LIMITS.bytes;
export const MESSAGE_PLACES = MESSAGE_BYTES / 4;
export const FEW_MESSAGES = MESSAGE_PLACES / 4;

/**
 * The places by which strategies know what a move of an event loop or a message conflicts with, before the message has
 * a number. They are in the block for messages: one for each thread's event loop, and the rest for ports that are being
 * sent in a message.
 */
export const LOOP_PLACES = 0;
export const PORT_PLACES = LOOP_PLACES + SCRIPT_LIMITS.agents;

/** @param {number} agent @returns {number} the place of its event loop, as strategies know it */
export const loopPlace = (agent) => placeNumber(MESSAGES, 4 * (LOOP_PLACES + agent));

/** How many blocks for a program's memory a script can have, and how long each can be. Others have greater numbers. */
export const MOST_BLOCKS = MESSAGES;
export const MOST_BYTES = SCRIPT_LIMITS.bytes;

/** In place of a view's kind: what a buffer had in it when it became a block, as a write of its thread. */
export const HELD = KINDS.length + 2;

/** @param {number} messages how many a run has @returns {number} how many bytes its block for messages has */
export const messageBytes = (messages) => (messages > FEW_MESSAGES ? MESSAGE_BYTES : 4 * FEW_MESSAGES);

const NO_BYTES = new Uint8Array(0);

const COUNT = 0;
const LENGTHS = 1;
const WORDS = LENGTHS + SCRIPT_LIMITS.blocks;

export class Blocks {
  static memory() {
    return { words: new SharedArrayBuffer(WORDS * 4), more: MoreBlocks.memory() };
  }

  /**
   * @param {ReturnType<typeof Blocks.memory>} shared
   * @param {SharedArrayBuffer[]} copies for each block that a script can have, as long as it can be
   * @param {import("./recorded-memory.mjs").RecordedMemory} memory whose blocks these are
   * @param {number[]} lengths of the blocks, which are kept as they are
   */
  constructor(shared, copies, memory, lengths) {
    this.words = new Int32Array(shared.words);
    this.more = new MoreBlocks(shared.more);
    this.copies = copies;
    this.memory = memory;
    this.lengths = lengths;
    /** @type {(SharedArrayBuffer | undefined)[]} the buffer of each block that this thread knows */
    this.buffers = [];
    this.clear();
  }

  /** @returns {number} how many blocks there are that a script can have */
  get count() {
    return this.words[COUNT];
  }

  /** @returns {boolean} whether there are blocks that no script can have */
  get haveMore() {
    return this.more.count > 0;
  }

  /** @returns {number[]} the numbers of all blocks, in their order */
  numbers() {
    /** @type {number[]} */
    const numbers = [];
    for (let block = 0; block < this.count; block += 1) numbers[block] = block;
    return numbers.concat(this.more.numbers());
  }

  /** A run begins, in which nothing was made yet. The referee calls it. */
  begin() {
    const { copies, memory, words } = this;
    for (let block = 0; block < words[COUNT]; block += 1) memory.shadow[block] = new Uint8Array(copies[block]);
    for (let block = 0; block < words[COUNT]; block += 1) memory.shadow[block].fill(0);
    words[COUNT] = 0;
    this.more.begin();
    this.clear();
  }

  /**
   * A buffer of this thread becomes a block.
   * @param {SharedArrayBuffer} buffer
   * @param {string} place where it was made; empty: it isn't known
   * @param {number} [most] how long its memory can get
   * @returns {number} its number; -1: there is no room for it
   */
  add(buffer, place, most = mostLengthOf(buffer)) {
    const { words } = this;
    const length = sharedLengthOf(buffer);
    const isMore = words[COUNT] === MOST_BLOCKS || length > MOST_BYTES || isGrowable(buffer) || most > length;
    const block = isMore ? this.more.add(length, most, place) : words[COUNT];
    if (block < 0) return block;
    if (!isMore) {
      words[LENGTHS + block] = length;
      words[COUNT] += 1;
    }
    this.adopt(block, buffer);
    return block;
  }

  /**
   * This thread learns about a block.
   * @param {number} block
   * @param {SharedArrayBuffer} buffer
   */
  adopt(block, buffer) {
    const { memory, lengths } = this;
    // Others may come later that have smaller numbers.
    for (let other = memory.real.length; other < block; other += 1) {
      memory.real[other] = NO_BYTES;
      memory.shadow[other] = NO_BYTES;
      lengths[other] = 0;
    }
    this.buffers[block] = buffer;
    memory.real[block] = new Uint8Array(buffer);
    this.#learn(block, sharedLengthOf(buffer));
  }

  /**
   * A block that no script can have as it is begins: from now on it is known what this thread has written there.
   * @param {number} block
   * @param {number} agent the thread
   * @param {number} position in the log
   */
  begins(block, agent, position) {
    this.memory.takeAll(block);
    this.more.begins(block, agent, position);
  }

  /** @param {number} block that this thread knows @returns {number} how long it is now */
  lengthOf(block) {
    return block < FIRST_MORE ? this.lengths[block] : this.more.length(block);
  }

  /** @param {number} block that this thread has made longer */
  grew(block) {
    const { length } = this.memory.real[block];
    this.more.grew(block, length);
    this.lengths[block] = length;
  }

  /**
   * The referee learns about all blocks that were made.
   * @param {number} messages how many the run has
   */
  refresh(messages) {
    const { words, more } = this;
    for (let block = 0; block < words[COUNT]; block += 1) this.#learn(block, words[LENGTHS + block]);
    for (const block of more.numbers()) this.#learn(block, more.known(block).length);
    // Nobody writes there.
    this.lengths[MESSAGES] = messageBytes(messages);
    this.memory.shadow[MESSAGES] = new Uint8Array(this.copies[MESSAGES], 0, this.lengths[MESSAGES]);
  }

  /** @param {number} block @param {number} length */
  #learn(block, length) {
    const isMore = block >= FIRST_MORE;
    this.memory.shadow[block] = isMore ? this.more.whole(block) : new Uint8Array(this.copies[block], 0, length);
    this.lengths[block] = length;
  }

  /** This thread knows no blocks. */
  clear() {
    const { memory, lengths } = this;
    this.buffers = [];
    for (let block = 0; block < SCRIPT_LIMITS.blocks; block += 1) {
      memory.real[block] = NO_BYTES;
      memory.shadow[block] = NO_BYTES;
      lengths[block] = block === MESSAGES ? messageBytes(0) : 0;
    }
    memory.real.length = SCRIPT_LIMITS.blocks;
    memory.shadow.length = SCRIPT_LIMITS.blocks;
    lengths.length = SCRIPT_LIMITS.blocks;
  }
}
