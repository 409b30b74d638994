// The simulator of a page: the module, which the page has packed by gzip, as base64, run by the page's loader.

import { by } from "./dom.mjs";

/** @typedef {{ status: number, output: Uint8Array, complaint: string }} SimulatedResult */
/** @typedef {{ command: (words: string[], read: () => Uint8Array) => SimulatedResult }} PageSimulator */
/** @typedef {new (module: WebAssembly.Module) => PageSimulator} SimulatorClass */

// Browsers have it, and the types of older ones don't.
const { DecompressionStream: Unpacking } = /** @type {any} */ (globalThis);

/** @param {string} text the module as the page has it */
async function unpacked(text) {
  const packed = Uint8Array.from(atob(text), (sign) => sign.charCodeAt(0));
  const bytes = new Blob([packed]).stream().pipeThrough(new Unpacking("gzip"));
  return new Response(bytes).arrayBuffer();
}

/**
 * @param {SimulatorClass} Simulator
 * @returns {Promise<import("../schedule/editing.mjs").Simulate>}
 * @throws {Error} if the browser can't compile the module
 */
export async function simulateBy(Simulator) {
  const bytes = await unpacked((by("simulator").textContent ?? "").trim());
  const simulator = new Simulator(await WebAssembly.compile(bytes));
  return (words, input) => {
    const { status, output, complaint } = simulator.command(words, () => input);
    return { status, output, complaint: new TextEncoder().encode(complaint) };
  };
}
