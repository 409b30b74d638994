// Command lines in this process: they need no processes of their own, and the referee's thread of one serves the next.
// That one command line prints the same, and ends in the same way, is a test's subject elsewhere.

import { Writable } from "node:stream";
import { obey } from "../../lib/command/main.mjs";
import { Job } from "../../lib/seeds/job.mjs";

/** @typedef {import("./programs.mjs").Ended} Ended */

/** @type {Promise<unknown>} settled when no command is under way: each has the standard streams for itself */
let rest = Promise.resolve();

/**
 * Runs a command line, in which a job makes its runs in this process.
 * @param {string[]} words
 * @returns {Promise<Ended>}
 */
export function commandHere(words) {
  const ended = rest.then(() => withStreams(() => obey(byOneJob(words), new Job())));
  rest = ended.catch(() => {});
  return ended;
}

/**
 * Does something while the standard streams are collected. The tests' reporter has got its own before.
 * @param {() => Promise<number>} act
 * @param {boolean} [isTerminal] whether they are a terminal
 * @returns {Promise<Ended>}
 */
export async function withStreams(act, isTerminal = false) {
  const texts = { stdout: "", stderr: "" };
  const names = /** @type {const} */ (["stdout", "stderr"]);
  const own = names.map((name) => Object.getOwnPropertyDescriptor(process, name));
  for (const name of names) {
    /** @type {(text: string, encoding: string, done: () => void) => void} */
    const write = (text, _, done) => {
      texts[name] += text;
      done();
    };
    const stream = Object.assign(new Writable({ decodeStrings: false, write }), { isTTY: isTerminal });
    Object.defineProperty(process, name, { configurable: true, enumerable: true, get: () => stream });
  }
  try {
    const status = await act();
    return { status, ...texts };
  } finally {
    names.forEach((name, at) => Object.defineProperty(process, name, /** @type {PropertyDescriptor} */ (own[at])));
  }
}

/** @param {string[]} words @returns {string[]} those of a command line that takes no further jobs */
const byOneJob = (words) => (/^--(jobs|replay)$/m.test(words.join("\n")) ? words : ["--jobs", "1", ...words]);
