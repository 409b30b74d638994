// Files in the folder that --out names, and nowhere else.

import { randomBytes } from "node:crypto";
import { closeSync, existsSync, mkdirSync, openSync, renameSync, rmSync, writeFileSync } from "node:fs";
import { join, resolve } from "node:path";
import { choicesText } from "../../script/choices.mjs";
import { Refused } from "../options/refused.mjs";
import { HERE } from "../processes/platform.cjs";
import { comesBefore } from "../run/order.mjs";
import { onceFree } from "./once-free.mjs";

/**
 * @typedef {object} KeptFiles
 * @property {string} folder as it was given
 * @property {string} path
 * @property {string[]} files
 * @property {string[]} [notes] what their readers must know; an older recorder has none
 */

/** The ending of the file by which a kept run of a program is made again: its name begins with the run's. */
export const PROGRAM_ENDING = "program.json";

/** The ending of the file that has the choices of a kept run's agents. A replay looks for it beside the script. */
export const CHOICES_ENDING = "choices.json";

/**
 * @param {Pick<import("../run/outcome.mjs").Outcome, "script" | "choices">} outcome
 * @returns {string | undefined} the text of that file
 */
const choicesOf = ({ script, choices }) =>
  (script === undefined || choices === undefined ? undefined : choicesText(choices));

/** A file couldn't be written. */
export class NotKept extends Error {}

/**
 * Why a run that is to be kept has not all of its files.
 * @param {import("../run/outcome.mjs").Outcome} outcome
 * @returns {string[]} a sentence each
 */
export function missingFiles({ seed, script, noScript, trace, noTrace }) {
  const noneOf = (/** @type {string} */ ending, /** @type {string} */ why) =>
    `not kept: seed-${seed}.${ending}: ${why}`;
  return [
    ...(script === undefined && noScript !== undefined ? [noneOf("json", noScript)] : []),
    ...(trace === undefined && noTrace !== undefined ? [noneOf("trace.jsonl", noTrace)] : []),
  ];
}

/**
 * Makes a folder, and those above it. Node's own way never ends if the folder above exists and no folder can be made in
 * it, as in /proc.
 * @param {string} path
 * @param {import("../processes/platform.cjs").Platform} [platform]
 * @throws {Error} if it can't be made
 */
export function makeFolder(path, platform = HERE) {
  if (existsSync(path)) return;
  const above = platform.path.dirname(path);
  // The folder above a drive that isn't there is that drive itself.
  if (above !== path) makeFolder(above, platform);
  try {
    mkdirSync(path);
  } catch (error) {
    // Another process may have made it meanwhile.
    if (!existsSync(path)) throw error;
  }
}

/** @param {unknown} error of node's */
const messageOf = (error) => /** @type {Error} */ (error).message;

/** @param {string} path of a file, which may be gone */
const removeFile = (path) => onceFree(() => rmSync(path, { force: true }));

/** @param {string} path of a file that nobody needs: it stays if another program holds it */
function removeIfFree(path) {
  try {
    removeFile(path);
  } catch {
    // The error that made it useless is reported.
  }
}

export class RunStore {
  /**
   * Makes the folder if it isn't there, and tries whether a file can be written.
   * @param {string} folder
   * @param {string} option that names it
   * @param {string} [name] what the names of its files begin with; undefined: the word seed and the run's seed
   */
  constructor(folder, option = "--out", name = undefined) {
    this.folder = folder;
    this.name = name;
    /** @type {string[]} the files that this keeper has written there */
    this.names = [];
    /** @type {number | undefined} the seed of the failing run that is kept */
    this.seed = undefined;
    /** @type {import("../run/order.mjs").FailingRun | undefined} what is kept of that run */
    this.first = undefined;
    try {
      makeFolder(resolve(folder));
      removeFile(this.#writeAside("sabsim"));
    } catch (error) {
      throw new Refused(`${option} ${folder} can't be used: ${messageOf(error)}`);
    }
  }

  /**
   * Keeps a failing run, unless one that comes before it is kept, or nothing is reported about this one. If one that
   * comes after it was kept, its files go when all those of this one are there.
   * @param {import("../run/outcome.mjs").Outcome} outcome
   */
  keepFirst(outcome) {
    const { seed, onlyIf, script, report, trace, threads } = outcome;
    const texts = { json: script, [CHOICES_ENDING]: choicesOf(outcome), report, "trace.jsonl": trace };
    // For a program's run, the file that makes it again is kept later.
    const isEmpty = threads === undefined && Object.values(texts).every((text) => text === undefined);
    const own = { seed, onlyIf };
    if (isEmpty || (this.first !== undefined && comesBefore(this.first, own))) return;
    const before = this.names;
    this.keepAll(seed, texts);
    // A replay would take those of another run for this one's.
    if (texts[CHOICES_ENDING] === undefined) this.#discard(this.nameOf(seed, CHOICES_ENDING));
    this.seed = seed;
    this.first = own;
    this.#remove(before);
  }

  /**
   * Keeps the shortest run in place of the one that was found, which stays beside it.
   * @param {import("../run/outcome.mjs").Outcome} original that is kept
   * @param {import("../run/outcome.mjs").Outcome} shortest
   */
  keepShortest(original, shortest) {
    const { seed } = original;
    const { script, report, trace } = shortest;
    this.keepAll(seed, {
      "original.json": original.script, [`original.${CHOICES_ENDING}`]: choicesOf(original),
      "original.report": original.report, "original.trace.jsonl": original.trace,
    });
    if (original.choices === undefined) this.#discard(this.nameOf(seed, `original.${CHOICES_ENDING}`));
    const texts = { json: script, [CHOICES_ENDING]: choicesOf(shortest), report, "trace.jsonl": trace };
    this.keepAll(seed, texts);
    const missing = Object.entries(texts).filter(([, text]) => text === undefined);
    this.#remove(missing.map(([ending]) => this.nameOf(seed, ending)).filter((name) => this.names.includes(name)));
  }

  /**
   * Keeps a run about which the code and the simulator differ.
   * @param {import("../check/difference.mjs").Scripted} outcome
   * @param {Record<string, string | undefined>} theirs what the simulator says, by the endings of its files
   */
  keepDiffering(outcome, theirs) {
    const { seed, script, report, trace } = outcome;
    this.keepAll(seed, { json: script, [CHOICES_ENDING]: choicesOf(outcome), report, "trace.jsonl": trace, ...theirs });
  }

  /** @param {number} seed @param {string} ending @returns {string} the name of a file of a run */
  nameOf(seed, ending) {
    return `${this.name ?? `seed-${seed}`}.${ending}`;
  }

  /** @param {string[]} notes on the files @returns {KeptFiles | null} where the files are; null: there are none */
  kept(notes) {
    const { folder, names } = this;
    return names.length === 0 ? null : { folder, path: resolve(folder), files: names, notes };
  }

  /**
   * Keeps what is reported about a run, each text in a file of its own.
   * @param {number} seed
   * @param {Record<string, string | undefined>} texts by the endings of their names; undefined: there is none
   */
  keepAll(seed, texts) {
    for (const [ending, text] of Object.entries(texts)) {
      if (text !== undefined) this.#keep(this.nameOf(seed, ending), text);
    }
  }

  /**
   * Keeps a text under a name. It is written to a file of another name first, so that nobody ever sees half of it.
   * @param {string} name of a file in the folder
   * @param {string} text
   */
  #keep(name, text) {
    const path = join(this.folder, name);
    let aside;
    try {
      aside = this.#writeAside(name, text);
      const from = aside;
      onceFree(() => renameSync(from, path));
    } catch (error) {
      if (aside !== undefined) removeIfFree(aside);
      const there = this.names.length === 0 ? "nothing" : this.names.join(", ");
      throw new NotKept(`${path} can't be written: ${messageOf(error)}; kept there: ${there}`);
    }
    if (!this.names.includes(name)) this.names = [...this.names, name];
  }

  /** @param {string[]} names of files of this keeper */
  #remove(names) {
    for (const name of names) {
      this.#discard(name);
      this.names = this.names.filter((each) => each !== name);
    }
  }

  /** @param {string} name of a file in the folder, which is removed if it is there */
  #discard(name) {
    const path = join(this.folder, name);
    try {
      removeFile(path);
    } catch (error) {
      throw new NotKept(`${path} can't be removed: ${messageOf(error)}`);
    }
  }

  /**
   * Writes a new file. Its name can't be known before, and a file that already has that name isn't written to. So no
   * link that somebody has put there leads out of the folder.
   * @param {string} name
   * @param {string} [text]
   * @returns {string} its path
   */
  #writeAside(name, text = "") {
    const path = join(this.folder, `.${name}.${randomBytes(8).toString("hex")}`);
    const file = openSync(path, "wx");
    try {
      writeFileSync(file, text);
      return path;
    } catch (error) {
      removeIfFree(path);
      throw error;
    } finally {
      closeSync(file);
    }
  }
}
