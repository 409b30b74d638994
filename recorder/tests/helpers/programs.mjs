// Runs programs in tests, beside each other.

import { spawn } from "node:child_process";
import { fileURLToPath } from "node:url";
import { SABSIM, hasSabsim } from "./needs.mjs";
import { simulated } from "./simulate.mjs";

/** @typedef {import("node:child_process").ChildProcess} ChildProcess */
/** @typedef {import("node:child_process").StartOptions} StartOptions */

/**
 * @typedef {object} Ended how a process ends, and what it prints
 * @property {number | null} status null: a signal has ended it
 * @property {string} stdout
 * @property {string} stderr
 */

/** @typedef {Ended & { signal: string | null }} EndedBy with the signal that has ended it, if one has */

/**
 * The path of something in this repository.
 * @param {string} path from its top
 */
export const pathOf = (path) => fileURLToPath(new URL(`../../../${path}`, import.meta.url));

/**
 * What a process prints, and how it ends.
 * @param {ChildProcess} child
 * @returns {Promise<EndedBy>} fails if it can't be started
 */
export function endOf(child) {
  const texts = { stdout: "", stderr: "" };
  for (const name of /** @type {const} */ (["stdout", "stderr"])) {
    child[name]?.setEncoding("utf8").on("data", (text) => (texts[name] += text));
  }
  return new Promise((done, fail) => {
    child.on("error", fail);
    child.on("close", (status, signal) => done({ ...texts, status, signal }));
  });
}

/**
 * Starts a program.
 * @param {string} program
 * @param {string[]} words
 * @param {string | Uint8Array} [input] its whole standard input
 * @param {StartOptions} [options]
 * @returns {{ child: ChildProcess, ended: Promise<EndedBy> }}
 */
export function start(program, words, input = "", options = {}) {
  const child = spawn(program, words, { ...options, stdio: "pipe" });
  // A program may end before it has read everything.
  child.stdin.on("error", () => {});
  child.stdin.end(input);
  return { child, ended: endOf(child) };
}

/**
 * What the simulator does: the native program beside others, if it is given, and else the module.
 * @param {string[]} words
 * @param {string | Uint8Array} input
 * @returns {Promise<import("./simulate.mjs").SimulatedTexts>}
 */
export async function simulatedBeside(words, input) {
  if (!hasSabsim) return simulated(words, input);
  const { status, signal, stdout: output, stderr: errors } = await start(SABSIM, words, input).ended;
  if (status === null) throw new Error(`${SABSIM} was ended by ${signal}`);
  return { status, output, errors };
}

/**
 * The report that `sabsim replay` writes about a script.
 * @param {string} script
 * @returns {Promise<string>}
 */
export async function replayBySabsim(script) {
  const { status, output, errors } = await simulatedBeside(["replay"], script);
  if (status !== 0) throw new Error(`sabsim ended with status ${status}: ${errors}`);
  return output;
}
