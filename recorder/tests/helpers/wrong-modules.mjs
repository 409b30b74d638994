// Modules that aren't the simulator, though the recorder asks them as if they were.

import { readFileSync } from "node:fs";

const SIMULATOR = new URL("../../wasm/sabsim.wasm", import.meta.url);

/** @param {string} text */
const bytesOf = (text) => new TextEncoder().encode(text);

/**
 * A module with one function.
 * @param {...number} code of the function, with how long it is
 */
export const moduleOfOne = (...code) => Uint8Array.from([
  ...[0, 0x61, 0x73, 0x6d, 1, 0, 0, 0],
  // A type with five numbers of 32 bits and five of 64, a function of it, a memory of a page.
  ...[1, 14, 1, 0x60, 10, ...Array(5).fill(0x7f), ...Array(5).fill(0x7e), 0],
  ...[3, 2, 1, 0, 5, 3, 1, 0, 1],
  ...[7, 23, 2, 6, ...bytesOf("memory"), 2, 0, 10, ...bytesOf("sabsim_run"), 0, 0],
  ...[10, code.length + 1, 1, ...code],
]);

/** It traps in each call. */
export const TRAPPING = moduleOfOne(3, 0, 0, 0x0b);

/** The simulator, but it writes `retorn` in place of `return` into its reports. */
export function misspelling() {
  const bytes = readFileSync(SIMULATOR);
  const at = bytes.indexOf("beginact leave return ");
  if (at < 0) throw new Error("the module has no words of a report");
  bytes.write("o", at + "beginact leave ret".length);
  return bytes;
}
