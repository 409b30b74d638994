// Stores of a script that stand for ordinary writes, or for what `init` left. This finds what they were in the code:
// the array that wrote, and the value that it wrote. In a script a float is a whole number that has the same bits.

import { ANY_KIND, elementText, sizeOfKind, storedBytes } from "./values.mjs";

/** @typedef {import("./text.mjs").View} View */

/** What the names of views begin with whose stores stand for something else. */
export const OF_STORES = /^(?:ordinary|init)_/;

/** A name that the recorder gives a view by itself. */
const BY_ITSELF = new RegExp(`^(${ANY_KIND})(?:_b\\d+)?(?:_at\\d+)?(?:_x\\d+)?$`);

/** @param {{ name: string }} view @returns {string} its name without what says that it is one of stores */
export const plainName = ({ name }) => name.replace(OF_STORES, "");

/** @param {{ name: string }} view @returns {boolean} whether it has a name that the program gave it */
export const isNamed = (view) => !BY_ITSELF.test(plainName(view));

/**
 * The element of a view that begins at a byte, as texts call it: a word by its name alone.
 * @param {View} view
 * @param {number} byte of the block
 * @returns {string}
 */
export function labelOf(view, byte) {
  const name = plainName(view);
  return view.length === 1 && isNamed(view) ? name : `${name}[${(byte - view.offset) / sizeOfKind(view.kind)}]`;
}

/**
 * The view by which the code wrote what a store stands for.
 * @param {View} view of the store
 * @param {Map<string, View>} views of the script by their names
 * @returns {View} the view itself if it isn't one of such stores
 */
export function writtenView(view, views) {
  if (!OF_STORES.test(view.name)) return view;
  const name = plainName(view);
  const kinds = [views.get(name)?.kind, BY_ITSELF.exec(name)?.[1]];
  const kind = kinds.find((each) => each !== undefined && sizeOfKind(each) === sizeOfKind(view.kind)) ?? view.kind;
  return { ...view, name, kind };
}

/**
 * What a store stands for, in words: `samples[1] = 0.25`.
 * @param {View} view of the store
 * @param {Map<string, View>} views of the script by their names
 * @param {number} index
 * @param {number | bigint | string} operand a string of digits is a BigInt
 * @returns {string}
 */
export function writtenText(view, views, index, operand) {
  const written = writtenView(view, views);
  const label = labelOf(written, view.offset + index * sizeOfKind(view.kind));
  return `${label} = ${elementText(written.kind, storedBytes(view.kind, operand))}`;
}

/**
 * Whether a script has stores that stand for writes of floats.
 * @param {string} script
 * @returns {boolean}
 */
export function hasFloats(script) {
  /** @type {View[]} */
  const list = JSON.parse(script).views;
  const views = new Map(list.map((view) => [view.name, view]));
  return list.some((view) => OF_STORES.test(view.name) && writtenView(view, views).kind.startsWith("Float"));
}
