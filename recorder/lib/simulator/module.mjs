// The simulator in this process: the module sabsim.wasm. It is compiled when it is first asked.

import { readFileSync } from "node:fs";
import { Simulator } from "../../wasm/simulator.mjs";

/** @typedef {import("../../wasm/simulator.mjs").SimulatorJob} SimulatorJob */
/** @typedef {import("../../wasm/simulator.mjs").SearchJob} SearchJob */

/**
 * @typedef {object} SimulatorResult how a job ends
 * @property {number | null} status that the program would end with; null: a signal has ended it
 * @property {string} output
 * @property {string} complaint
 */

/** @typedef {SimulatorResult & { leftOut: number }} SimulatorSearchResult how many bytes of the output had no room */

const FOLDER = new URL("../../wasm/", import.meta.url);

// How many digits of the digest of the module's file are used.
const DIGITS_SHOWN = 12;

/** One agent stores, and another waits in vain. */
const SMALL_SCRIPT = JSON.stringify({
  blocks: [4],
  views: [{ name: "v", kind: "Int32", block: 0, offset: 0, length: 1 }],
  agents: [{ block: true, calls: [["store", "v", 0, 1]] }, { block: true, calls: [["wait", "v", 0, 1]] }],
  schedule: [0, 0, 1, 1],
});

const [encoder, decoder] = [new TextEncoder(), new TextDecoder()];

/** Room for the bytes of most inputs. The next call uses it again. */
const ROOM = new Uint8Array(2 ** 16);

// So many bytes a character of JavaScript has in UTF-8 at most.
const MOST_BYTES = 3;

/** @param {string} text @returns {Uint8Array} in UTF-8, until the next call */
function bytesOf(text) {
  if (text.length * MOST_BYTES > ROOM.length) return encoder.encode(text);
  return ROOM.subarray(0, encoder.encodeInto(text, ROOM).written);
}

/** @type {Map<string, WebAssembly.Module>} what was compiled in this process, by the URLs of files */
const compiled = new Map();

/** @param {URL} file @returns {WebAssembly.Module} which the engine compiles once */
function moduleAt(file) {
  const module = compiled.get(file.href) ?? new WebAssembly.Module(readFileSync(file));
  compiled.set(file.href, module);
  return module;
}

export class ModuleSimulator {
  /** @type {Simulator | undefined} */
  #simulator;

  /** @param {URL} [file] */
  constructor(file = new URL("sabsim.wasm", FOLDER)) {
    this.file = file;
  }

  /** @returns {string} the beginning of the digest of the module */
  get version() {
    const { module } = JSON.parse(readFileSync(new URL("sabsim.json", FOLDER), "utf8"));
    return `module ${module.slice(0, DIGITS_SHOWN)}`;
  }

  /** Makes the engine compile what a check needs, while nothing else is to be done. */
  prepare() {
    try {
      for (const job of /** @type {const} */ (["replay", "judge"])) this.run({ job }, SMALL_SCRIPT);
    } catch {
      // If it can't be compiled, it is an error when it is asked.
    }
  }

  #asked() {
    this.#simulator ??= new Simulator(moduleAt(this.file));
    return this.#simulator;
  }

  /**
   * @param {SimulatorJob} job
   * @param {string} input
   * @returns {SimulatorResult}
   * @throws {Error} if the module stops in the middle, or can't be compiled
   */
  run(job, input) {
    const { status, output, complaint } = this.#asked().run(job, bytesOf(input));
    return { status, output: decoder.decode(output), complaint };
  }

  /**
   * Searches the schedules of a file of automata.
   * @param {SearchJob} job
   * @param {string} input
   * @param {number} room how many bytes the output may have
   * @returns {SimulatorSearchResult}
   * @throws {Error} as above
   */
  search(job, input, room) {
    const { output, ...ended } = this.#asked().search(job, bytesOf(input), room);
    return { ...ended, output: decoder.decode(output) };
  }
}
