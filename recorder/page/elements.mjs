// The elements of a run's memory: which view shows some bytes, and what changed in them.

import { elementText, sizeOfKind } from "../script/values.mjs";
import { OF_STORES, isNamed, labelOf } from "../script/written.mjs";

/** @typedef {import("./words.mjs").View} View */

/** @typedef {{ view: View, label: string, block: number, byte: number }} Cell of memory that is shown */

/**
 * @typedef {object} Stored what a store of the script writes
 * @property {number} block
 * @property {number} byte
 * @property {Uint8Array} bytes
 * @property {View} view by which the code wrote them, as far as the script shows it
 */

/** @typedef {{ name: string, before: string, after: string }} Change of an element, in the code's values */

const UNSIGNED = /** @type {Record<number, string>} */ ({ 1: "Uint8", 2: "Uint16", 4: "Uint32", 8: "BigUint64" });

/** @param {View} view @returns {boolean} whether it is one word that has a name */
export const isWord = (view) => view.length === 1 && isNamed(view);

/** @param {View} view @returns {number} how many bytes its elements have */
export const sizeOf = ({ kind }) => sizeOfKind(kind);

/** @param {Uint8Array} bytes of its block @param {Cell} cell @returns {string} the value of an element */
export const valueAt = (bytes, { view, byte }) => elementText(view.kind, bytes, byte);

/**
 * Whether some bytes are in a view.
 * @param {View} view
 * @param {number} block
 * @param {number} byte
 * @param {number} size
 */
const covers = (view, block, byte, size) =>
  view.block === block && byte >= view.offset && byte + size <= view.offset + view.length * sizeOf(view);

/**
 * Whether a view has elements that are just some bytes.
 * @param {View} view
 * @param {number} block
 * @param {number} byte
 * @param {number} size
 */
const fits = (view, block, byte, size) =>
  covers(view, block, byte, size) && (byte - view.offset) % sizeOf(view) === 0 && size % sizeOf(view) === 0;

/**
 * Writes what a store has written.
 * @param {Uint8Array[]} blocks
 * @param {Stored} store
 */
export const write = (blocks, { block, byte, bytes }) => blocks[block].set(bytes, byte);

/** The views of a run, and which of them shows some bytes. */
export class Views {
  /** @param {{ views: View[], arrays: View[], blocks: number[] }} data of the run */
  constructor({ views, arrays, blocks }) {
    this.list = views;
    this.arrays = arrays;
    this.blocks = blocks;
    this.byName = new Map(views.map((view) => [view.name, view]));
    /** The shortest first: a word goes before an array that has it. */
    this.named = views.filter((view) => isNamed(view) && !OF_STORES.test(view.name))
      .sort((one, other) => one.length - other.length);
    /** @type {Map<string, View | undefined>} */
    this.known = new Map();
  }

  /**
   * The view by which an access is shown: a name of the program's, if it has one, and else the array of the code's.
   * @param {number} block
   * @param {number} byte
   * @param {number} size
   * @param {number} array by which the code has made the access: its position among the arrays, or -1
   * @returns {View | undefined} undefined: the bytes go by their numbers
   */
  of(block, byte, size, array) {
    const key = `${block} ${byte} ${size} ${array}`;
    if (!this.known.has(key)) this.known.set(key, this.#of(block, byte, size, this.arrays[array]));
    return this.known.get(key);
  }

  /** @param {number} block @param {number} byte @param {number} size @param {View | undefined} array */
  #of(block, byte, size, array) {
    /** @param {View} view */
    const isLike = (view) => (array === undefined ? sizeOf(view) === size : view.kind === array.kind);
    return this.named.find((view) => isLike(view) && fits(view, block, byte, size)) ?? array;
  }

  /**
   * A view for bytes that the code hasn't accessed by an array: one of the script's, or else a new one.
   * @param {number} block
   * @param {number} byte
   * @param {number} size
   * @returns {View}
   */
  plain(block, byte, size) {
    const known = this.list.find((view) =>
      sizeOf(view) === size && !OF_STORES.test(view.name) && fits(view, block, byte, size));
    if (known !== undefined) return known;
    const kind = byte % size === 0 ? UNSIGNED[size] ?? "Uint8" : "Uint8";
    const name = `${kind}${this.blocks.length > 1 ? `_b${block}` : ""}`;
    return { name, kind, block, offset: 0, length: Math.floor(this.blocks[block] / sizeOfKind(kind)) };
  }

  /**
   * The elements that show what a store has changed.
   * @param {Stored} store
   * @param {View | undefined} wanted the view of the access for which the store stands
   * @returns {Cell[]}
   */
  cellsOf({ block, byte, bytes: { length }, view: own }, wanted) {
    const views = wanted === undefined ? this.named : [wanted, ...this.named];
    return this.cellsIn(views.find((view) => covers(view, block, byte, length)) ?? own, byte, length);
  }

  /**
   * The elements of a view that have some bytes, each by its name if it has one.
   * @param {View} view
   * @param {number} byte
   * @param {number} length of the bytes
   * @returns {Cell[]}
   */
  cellsIn(view, byte, length) {
    const size = sizeOf(view);
    const first = byte - ((byte - view.offset) % size);
    return Array.from({ length: Math.ceil((byte + length - first) / size) }, (_, at) => {
      const place = first + at * size;
      const isName = (/** @type {View} */ each) => each.kind === view.kind && fits(each, view.block, place, size);
      return cellAt(this.named.find(isName) ?? view, place);
    });
  }
}

/** @param {View} view @param {number} byte @returns {Cell} the element that begins at a byte */
export const cellAt = (view, byte) => ({ view, label: labelOf(view, byte), block: view.block, byte });

/**
 * Makes some stores, and says which elements they have changed.
 * @param {Uint8Array[]} blocks
 * @param {Stored[]} stores
 * @param {(store: Stored) => Cell[]} cellsOf the elements that show what a store has changed
 * @returns {Change[]}
 */
export function changesBy(blocks, stores, cellsOf) {
  const cells = new Map(stores.flatMap(cellsOf).map((cell) => [cell.label, cell]));
  const all = [...cells.values()];
  const before = all.map((cell) => valueAt(blocks[cell.block], cell));
  for (const store of stores) write(blocks, store);
  const after = all.map((cell) => valueAt(blocks[cell.block], cell));
  return all.flatMap(({ label }, at) =>
    before[at] === after[at] ? [] : [{ name: label, before: before[at], after: after[at] }]);
}
