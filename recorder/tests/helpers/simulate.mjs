// The simulator, asked as pages ask the one that they have: the native program if it is given, and else the module.

import { spawnSync } from "node:child_process";
import { readFileSync } from "node:fs";
import { fileURLToPath } from "node:url";
import { Simulator } from "../../wasm/simulator.mjs";
import { SABSIM, hasSabsim } from "./needs.mjs";

const MODULE = new URL("../../wasm/sabsim.wasm", import.meta.url);

/** The words of a shell that run it. */
export const SIMULATOR_WORDS = hasSabsim
  ? SABSIM
  : `${process.execPath} ${fileURLToPath(new URL("../../sabsim.mjs", import.meta.url))}`;

/** @type {Simulator | undefined} */
let module;

/** @typedef {import("../../schedule/editing.mjs").Simulated} Simulated */
/** @typedef {{ status: number, output: string, errors: string }} SimulatedTexts */

/** @param {string[]} words @param {string | Uint8Array} input @returns {Simulated} */
function byModule(words, input) {
  module ??= new Simulator(new WebAssembly.Module(readFileSync(MODULE)));
  const { status, output, complaint } = module.command(words, () => Buffer.from(input));
  return { status, output: Buffer.from(output), complaint: Buffer.from(complaint) };
}

/** @param {string[]} words @param {string | Uint8Array} input @returns {Simulated} */
export function simulate(words, input) {
  if (!hasSabsim) return byModule(words, input);
  const { status, signal, stdout, stderr, error } = spawnSync(SABSIM, words, { input, maxBuffer: 2 ** 28 });
  if (error !== undefined && error.code !== "EPIPE") throw error;
  if (status === null) throw new Error(`${SABSIM} was ended by ${signal}`);
  return { status, output: stdout, complaint: stderr };
}

/**
 * The same with texts.
 * @param {string[]} words
 * @param {string | Uint8Array} input
 * @returns {SimulatedTexts}
 */
export function simulated(words, input) {
  const { status, output, complaint } = simulate(words, input);
  return { status, output: Buffer.from(output).toString(), errors: Buffer.from(complaint).toString() };
}
