// The names of the views by which a script shows windows. They say where the buffer was made, and at which of its bytes
// the window begins: `ring_mjs_12`, `ring_mjs_12_n2_at4096`. A buffer for which that isn't known goes by its number.

import { SIZES } from "../../../script/kinds.mjs";
import { MOST_CHARACTERS } from "../../options/names.mjs";

/** What the names of other views begin with, and what is left of a word that was cut. */
const OF_OTHERS = /^(?:_|ordinary_|init_|waitAsync_)+/;

/** @typedef {import("../../options/names.mjs").NamedView} NamedView */
/** @typedef {import("./windows.mjs").Window} Window */

/**
 * A name that no other view has.
 * @param {string} stem its end counts if it is too long
 * @param {string} end
 * @param {Set<string>} taken
 * @returns {string}
 */
function freeName(stem, end, taken) {
  for (let number = 1; ; number += 1) {
    const last = number === 1 ? end : `${end}_${number}`;
    const name = `${stem.slice(-(MOST_CHARACTERS - last.length)).replace(OF_OTHERS, "")}${last}`;
    if (!taken.has(name)) return name;
  }
}

/** @param {string} called where a buffer was made, or nothing @param {number} buffer @returns {string} */
function stemOf(called, buffer) {
  if (called === "") return `buffer_${buffer}`;
  return called.replace(", number ", "_n").replace(/^.*\//, "").replace(/[^A-Za-z0-9]+/g, "_");
}

/**
 * @param {Map<Window, number[]>} windows the kinds of elements by which each is touched
 * @param {string[]} called the names of the program's blocks
 * @returns {NamedView[]} one for each window and kind
 */
export function windowNames(windows, called) {
  /** @type {Set<string>} */
  const taken = new Set();
  return [...windows].flatMap(([{ buffer, from, to, block, byte }, kinds]) => kinds.map((kind) => {
    const name = freeName(stemOf(called[buffer] ?? "", buffer), from === 0 ? "" : `_at${from}`, taken);
    taken.add(name);
    return { name, kind, block, offset: byte, length: Math.floor((to - from) / SIZES[kind]) };
  }));
}
