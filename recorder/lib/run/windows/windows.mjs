// The windows of a program's run. Its buffers may be more, or larger, than a script and a trace can have, but a run
// touches few pages of them. Pages beside each other are a window, and windows are packed into the blocks of the script
// one after another. If no block has room for all of these pages, they are cut between two that no access crosses. Two
// bytes of the program never get the same byte there.

import { MESSAGES, MOST_BLOCKS, MOST_BYTES } from "../../memory/blocks.mjs";

/** How many bytes a page has: a multiple of each element's, so that elements stay aligned. */
export const PAGE_BYTES = 64;

const ALIGNED = 8;

/**
 * @typedef {object} BufferRange of a buffer
 * @property {number} buffer its number: that of a block of the run
 * @property {number} from its first byte
 * @property {number} to the byte behind its last one
 */

/** @typedef {BufferRange & { block: number, byte: number }} Window where the stretch begins in the script */

/** @typedef {{ block: number, byte: number }} ScriptPlace in the script */

/** @typedef {(buffer: number, from: number, to: number) => number} Cut see `TouchedPages.cut` */

/** The pages of buffers that were touched. */
export class TouchedPages {
  /** @param {number[]} lengths of the buffers */
  constructor(lengths) {
    this.lengths = lengths;
    /** @type {Map<number, Uint8Array>} of each buffer, 1 for each touched page */
    this.pages = new Map();
    /** @type {Map<number, Set<number>>} of each buffer, the pages whose beginning an access crosses */
    this.crossed = new Map();
  }

  /** @param {number} buffer @param {number} from @param {number} to the byte behind the last one that is touched */
  add(buffer, from, to) {
    let pages = this.pages.get(buffer);
    if (pages === undefined) {
      pages = new Uint8Array(Math.ceil(this.lengths[buffer] / PAGE_BYTES));
      this.pages.set(buffer, pages);
    }
    const first = Math.floor(from / PAGE_BYTES);
    const end = Math.ceil(to / PAGE_BYTES);
    pages.fill(1, first, end);
    if (end - first < 2) return;
    const crossed = this.crossed.get(buffer) ?? new Set();
    this.crossed.set(buffer, crossed);
    for (let page = first + 1; page < end; page += 1) crossed.add(page);
  }

  /**
   * Where a stretch can be cut.
   * @param {number} buffer
   * @param {number} from
   * @param {number} to the cut comes here at the latest
   * @returns {number} the last byte that begins a page which no access crosses; `from`: there is none
   */
  cut(buffer, from, to) {
    let page = Math.floor(to / PAGE_BYTES);
    while (page * PAGE_BYTES > from && this.crossed.get(buffer)?.has(page)) page -= 1;
    return Math.max(page * PAGE_BYTES, from);
  }

  /** @returns {Generator<BufferRange>} the longest ones, in the order of the buffers and of their bytes */
  *stretches() {
    for (const buffer of [...this.pages.keys()].sort((one, other) => one - other)) {
      const pages = /** @type {Uint8Array} */ (this.pages.get(buffer));
      for (let page = pages.indexOf(1); page >= 0;) {
        const end = pages.indexOf(0, page);
        const to = end < 0 ? this.lengths[buffer] : end * PAGE_BYTES;
        yield { buffer, from: page * PAGE_BYTES, to };
        page = end < 0 ? -1 : pages.indexOf(1, end);
      }
    }
  }
}

/**
 * @param {{ of: number, from: number, to: number }[]} ranges each a part of something
 * @returns {boolean} whether two of them have a byte in common
 */
function overlap(ranges) {
  const sorted = [...ranges].sort((one, other) => one.of - other.of || one.from - other.from);
  return sorted.some(({ of, from }, at) => at > 0 && sorted[at - 1].of === of && from < sorted[at - 1].to);
}

export class Windows {
  /** @param {Window[]} list in the order of the buffers and of their bytes */
  constructor(list) {
    this.list = list;
    /** @type {Map<number, Window[]>} */
    this.ofBuffers = new Map();
    for (const window of list) {
      const known = this.ofBuffers.get(window.buffer);
      if (known === undefined) this.ofBuffers.set(window.buffer, [window]);
      else known.push(window);
    }
  }

  /**
   * Packs stretches of buffers: each into the first block that has room for it. If none has, as much of it as can be
   * goes into the one that has most.
   * @param {Iterable<BufferRange>} stretches
   * @param {Cut} [cut] without it, none can be cut
   * @returns {Windows | undefined} undefined: there is no room for all
   */
  static packed(stretches, cut = (_, from) => from) {
    const used = Array.from({ length: MOST_BLOCKS }, () => 0);
    /** @type {Window[]} */
    const list = [];
    for (const { buffer, from: first, to: end } of stretches) {
      for (let from = first; from < end;) {
        const fitting = used.findIndex((bytes) => bytes + end - from <= MOST_BYTES);
        const block = fitting < 0 ? used.indexOf(Math.min(...used)) : fitting;
        const to = fitting < 0 ? cut(buffer, from, from + MOST_BYTES - used[block]) : end;
        if (to === from) return undefined;
        list.push({ buffer, from, to, block, byte: used[block] });
        used[block] += Math.ceil((to - from) / ALIGNED) * ALIGNED;
        from = to;
      }
    }
    return new Windows(list);
  }

  /** @returns {boolean} whether two of them have the same byte of the program, or of the script */
  get overlap() {
    const ofBuffers = this.list.map(({ buffer, from, to }) => ({ of: buffer, from, to }));
    const ofBlocks = this.list.map(({ block, byte, from, to }) => ({ of: block, from: byte, to: byte + to - from }));
    return overlap(ofBuffers) || overlap(ofBlocks);
  }

  /**
   * @param {number} messages the length of the block for messages, which stays as it is
   * @returns {number[]} those of the script's blocks
   */
  lengths(messages) {
    const lengths = Array.from({ length: MESSAGES }, () => 0);
    for (const { from, to, block, byte } of this.list) lengths[block] = byte + to - from;
    return [...lengths, messages];
  }

  /**
   * @param {number} buffer
   * @param {number} byte
   * @returns {Window | undefined} that has the byte
   */
  at(buffer, byte) {
    const windows = this.ofBuffers.get(buffer) ?? [];
    let first = 0;
    for (let end = windows.length; first < end;) {
      const middle = (first + end) >>> 1;
      if (windows[middle].to <= byte) first = middle + 1;
      else end = middle;
    }
    return first < windows.length && windows[first].from <= byte ? windows[first] : undefined;
  }

  /**
   * @param {number} block of the script
   * @param {number} byte
   * @returns {{ buffer: number, byte: number } | undefined} which byte of the program is there
   */
  behind(block, byte) {
    const window = this.list.find((each) =>
      each.block === block && each.byte <= byte && byte < each.byte + each.to - each.from);
    return window && { buffer: window.buffer, byte: window.from + byte - window.byte };
  }

  /**
   * @param {number} buffer
   * @param {number} byte that a window has, or the block for messages
   * @returns {ScriptPlace}
   */
  placeOf(buffer, byte) {
    if (buffer === MESSAGES) return { block: MESSAGES, byte };
    const window = this.at(buffer, byte);
    if (window === undefined) throw new Error(`no window has byte ${byte} of block ${buffer}`);
    return { block: window.block, byte: window.byte + byte - window.from };
  }
}
