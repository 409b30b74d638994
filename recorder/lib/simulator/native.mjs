// The native program, which takes the same jobs as the module: it is started once for each job.

import { spawn, spawnSync } from "node:child_process";
import { accessSync, constants, statSync } from "node:fs";

/** @typedef {import("./module.mjs").SimulatorJob} SimulatorJob */
/** @typedef {import("./module.mjs").SimulatorResult} SimulatorResult */
/** @typedef {import("./module.mjs").SearchJob} SearchJob */
/** @typedef {import("./module.mjs").SimulatorSearchResult} SimulatorSearchResult */

// The longest report has 100,000 lines, and the bytes of four blocks; the longest trace has a million lines.
const MOST_OUTPUT = 2 ** 26;
const MOST_MILLISECONDS = 600_000;

/** The status of a program that refuses the words of its command line. */
const REFUSED_WORDS = 2;

/** The program isn't there, or can't be run. */
export class NoSabsim extends Error {}

/** @param {SimulatorJob} job @returns {string[]} the words that ask the program for it */
function wordsOf({ job, format, acts = false }) {
  const [command, ...kind] = job.split("-");
  const chosen = format === undefined ? [] : ["--format", format];
  return [command, ...kind.map((each) => `--${each}`), ...chosen, ...(acts ? ["--acts"] : [])];
}

export class NativeSimulator {
  /** @param {string} path */
  constructor(path) {
    this.path = path;
  }

  /** @returns {string} what the program prints as its version; its path, if it prints none */
  get version() {
    try {
      const { status, output } = this.#ended(["--version"], "");
      return `program ${status === 0 && output !== "" ? output.split("\n", 1)[0] : this.path}`;
    } catch {
      // If it can't be run, that is an error when it is to check something.
      return `program ${this.path}`;
    }
  }

  /** The program needs no preparation. */
  prepare() {}

  /**
   * @param {SimulatorJob} job
   * @param {string} input
   * @returns {SimulatorResult}
   * @throws {NoSabsim}
   */
  run(job, input) {
    const ended = this.#ended(wordsOf(job), input);
    if (ended.status !== REFUSED_WORDS) return ended;
    throw this.#olderThan(job.job, ended.complaint);
  }

  /**
   * Searches the schedules of a file of automata.
   * @param {SearchJob} job
   * @param {string} input
   * @param {AbortSignal} [signal] ends the program
   * @returns {Promise<SimulatorSearchResult>}
   * @throws {NoSabsim}
   */
  async search({ timeouts, limit, format = "plain" }, input, signal) {
    const words = ["search", "--timeouts", timeouts, "--limit", `${limit}`, "--format", format];
    const child = spawn(this.path, words, { stdio: "pipe", signal });
    const [output, complaint] = [child.stdout, child.stderr].map(textOf);
    // A program that ends before it has read all breaks the pipe.
    child.stdin.on("error", () => {});
    child.stdin.end(input);
    /** @type {number | null} */
    const status = await new Promise((done, fail) => {
      child.on("error", (error) => fail(signal?.reason ?? new NoSabsim(`${this.path} can't be run: ${error.message}`)));
      child.on("close", done);
    });
    if (status === REFUSED_WORDS) throw this.#olderThan("search", complaint());
    return { status, output: output(), complaint: complaint(), leftOut: 0 };
  }

  /** @param {string} job that the program refuses @param {string} complaint @returns {NoSabsim} */
  #olderThan(job, complaint) {
    return new NoSabsim(`${this.path} can't do ${job}, so it is older than the recorder: ${complaint.trim()}`);
  }

  /** @param {string[]} words @param {string} input @returns {SimulatorResult} */
  #ended(words, input) {
    const encoding = /** @type {const} */ ("utf8");
    const options = { input, encoding, maxBuffer: MOST_OUTPUT, timeout: MOST_MILLISECONDS };
    const { error, status, stdout, stderr } = spawnSync(this.path, words, options);
    // The status of a program that ends before it has read all says enough.
    if (error !== undefined && error.code !== "EPIPE") {
      throw new NoSabsim(`${this.path} can't be run: ${error.message}`);
    }
    return { status, output: stdout, complaint: stderr };
  }
}

/** @param {NodeJS.Listened} stream @returns {() => string} all that has come of it */
function textOf(stream) {
  /** @type {Buffer[]} */
  const parts = [];
  stream.on("data", (part) => void parts.push(part));
  return () => Buffer.concat(parts).toString();
}

/**
 * Makes sure that a program is there.
 * @param {string} path
 * @returns {string} the path
 * @throws {NoSabsim}
 */
export function programAt(path) {
  try {
    accessSync(path, constants.X_OK);
    if (statSync(path).isFile()) return path;
  } catch {
    // It is reported below.
  }
  throw new NoSabsim(`there is no program sabsim at ${path}`);
}
