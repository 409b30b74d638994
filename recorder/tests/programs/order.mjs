// Little programs whose lines come in an order that node and the program alone decide, and their runs in node itself
// and in the recorder.

import { spawn } from "node:child_process";
import { readdirSync } from "node:fs";
import { fileURLToPath } from "node:url";
import { endOf } from "../helpers/programs.mjs";

const FOLDER = new URL("./order/", import.meta.url);
const SECONDS = 120;

/** The names of the programs: each file of the folder is one; what they import is in folders below. */
export const ORDER = readdirSync(FOLDER).filter((name) => /\.[cm]js$/.test(name)).sort();

/** What the recorder puts before each line that a program prints: the thread. */
const THREAD = /^\[[^\]]*\] /;

/** What node prints of a warning; that of a timer has two lines. */
const WARNING = /^(?:\((?:node:\d+|Use `node --trace-warnings)|Timeout duration was set to 1\.$)/;

const RECORDING = fileURLToPath(new URL("../helpers/order-process.mjs", import.meta.url));

/** @param {string} name of a program @returns {string} the path of its file */
export const orderPath = (name) => fileURLToPath(new URL(name, FOLDER));

/**
 * Runs a program in node itself.
 * @param {string} path of its main file
 * @param {{ args?: string[], whenPrinted?: (text: string, pid: number) => void }} [how] `whenPrinted` gets all that the
 *   program has printed so far, and the number of its process
 * @returns {Promise<{ lines: string[], status: number | null, signal: string | null, problems: string }>} what it
 *   printed, how it ended, and what it wrote to stderr
 */
export async function runInNode(path, { args = [], whenPrinted = () => {} } = {}) {
  const options = { stdio: /** @type {const} */ (["ignore", "pipe", "pipe"]), timeout: SECONDS * 1_000 };
  const child = spawn(process.execPath, [path, ...args], options);
  const end = endOf(child);
  let printed = "";
  child.stdout.on("data", (text) => whenPrinted(printed += text, child.pid));
  const { stdout, stderr: problems, status, signal } = await end;
  return { lines: stdout.split("\n").slice(0, -1), status, signal, problems };
}

/**
 * @typedef {object} InRecorder a run in the recorder
 * @property {string[]} lines what it printed
 * @property {string} ending
 * @property {string} detail
 */

/**
 * Runs programs in the recorder, in one process and in the same threads.
 * @param {string[]} names
 * @param {number} seeds how many of each
 * @param {{ folder?: URL, options?: object }} [how] where they are; what options there are besides
 * @returns {Promise<Map<string, InRecorder[]>>} the runs of each, in the order of the seeds
 */
export async function runsInRecorder(names, seeds, { folder = FOLDER, options = {} } = {}) {
  const urls = names.map((name) => new URL(name, folder).href);
  const words = [RECORDING, String(seeds), JSON.stringify(options), ...urls];
  const { stdout, stderr } = await endOf(spawn(process.execPath, words, { stdio: ["ignore", "pipe", "pipe"] }));
  // What the program prints goes to standard error, and between two runs there is a line with NUL.
  const printed = stderr.split("\0\n");
  const endings = stdout.split("\n").slice(0, -1);
  if (endings.length !== names.length * seeds) throw new Error(`the recorder has ended: ${stderr}`);
  const linesOf = (/** @type {string} */ text) =>
    text.split("\n").slice(0, -1).map((line) => line.replace(THREAD, "")).filter((line) => !WARNING.test(line));
  const runs = endings.map((line, at) => ({ ...JSON.parse(line), lines: linesOf(printed[at]) }));
  return new Map(names.map((name, at) => [name, runs.slice(at * seeds, (at + 1) * seeds)]));
}
