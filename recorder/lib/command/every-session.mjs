// What --all does: it tries every schedule. If not all can be tried, it goes on with the seeds.

import { dataOf } from "../every/data.mjs";
import { EveryUse } from "../every/every-use.mjs";
import { MOST_SHOWN } from "../every/showing.mjs";
import { everyText } from "../every/every-text.mjs";
import { keepBesides } from "../keeping/kept-besides.mjs";
import { RunStore } from "../keeping/run-store.mjs";
import { assumed } from "../options/table.mjs";
import { overAfter } from "../processes/time-over.mjs";
import { chosenProgram, simulatorAt } from "../simulator/chosen.mjs";
import { EveryProgress } from "./every-progress.mjs";
import { Interruption } from "./interruption.mjs";
import { print } from "./print.mjs";
import { countOf } from "../seeds/ranges.mjs";
import { Session } from "./session.mjs";

/** @typedef {import("./options.mjs").CommandOptions} CommandOptions */
/** @typedef {import("../every/every.mjs").EveryResult} EveryResult */
/** @typedef {{ folder: string, files: string[] }} Files */

/** The number of the form of what is printed as JSON. */
const FORM = 1;

export class EverySession {
  /**
   * @param {CommandOptions} options
   * @param {string} module its URL
   * @param {import("../seeds/runs.mjs").AnyJob} [job] the first one of the real runs, if it has begun
   * @param {number} [after] after how many milliseconds the line of progress is shown, if it isn't a second
   */
  constructor(options, module, job, after) {
    const { within = assumed("within"), states = assumed("states") } = /** @type {any} */ (options);
    this.options = options;
    this.module = module;
    this.job = job;
    this.every = { ...options, module, within, states };
    this.interruption = new Interruption();
    this.over = overAfter(within);
    this.after = after;
  }

  /** @returns {Promise<{ failed: boolean, problems: unknown[], isPart: boolean }>} `isPart`: not all was done */
  async run() {
    const { checkEvery, format, sabsim } = this.options;
    const chosen = checkEvery > 0 ? chosenProgram(sabsim) : undefined;
    const given = /** @type {any} */ ({ ...this.every, sabsim: chosen });
    const every = new EveryUse(given, { signal: this.interruption.signal, over: this.over, job: this.job });
    const progress = new EveryProgress(every, countOf(every.seeds), this.after);
    /** @type {EveryResult} */
    let tried;
    try {
      tried = await every.run();
    } finally {
      progress.end();
      await this.interruption.end();
    }
    const data = dataOf(tried);
    const files = this.#keep(tried, simulatorAt(chosen));
    if (format === "plain") await print(`${everyText(data)}${keptText(files)}`);
    if (!data.closed) return this.#goOn(data, tried.shown.some(({ isSame }) => isSame));
    const json = { every: FORM, module: this.options.module, ...data, kept: files ?? null };
    if (format === "json") await print(`${JSON.stringify(json)}\n`);
    return { failed: data.found.length > 0, problems: [], isPart: !data.isWhole };
  }

  /**
   * Goes on with the seeds.
   * @param {import("../every/data.mjs").EveryData} every what came of a search that isn't closed
   * @param {boolean} isShown whether a real run has shown something of it
   */
  async #goOn(every, isShown) {
    const { over } = this;
    const { failed, problems } = await new Session({ ...this.options, every, over }, this.module).run();
    return { failed: failed || isShown, problems, isPart: true };
  }

  /**
   * Keeps the automata, if they are whole, and each run that is shown.
   * @param {EveryResult} tried
   * @param {import("../simulator/chosen.mjs").ChosenSimulator} simulator
   * @returns {Files | undefined}
   */
  #keep({ onlyRuns, open, report, shown }, simulator) {
    const { out } = this.options;
    const isClosed = open === undefined;
    const outcomes = [...shown.filter(({ isSame }) => isSame), ...onlyRuns].flatMap(({ outcome = [] }) => outcome);
    if (out === undefined || !(isClosed || outcomes.length > 0)) return undefined;
    const keepers = [new RunStore(out, "--out", "all")];
    if (isClosed) keepers[0].keepAll(0, { "automata.json": `${JSON.stringify(report?.file)}\n` });
    outcomes.slice(0, MOST_SHOWN).forEach((outcome, at) => {
      const keeper = new RunStore(out, "--out", `all-${at + 1}`);
      keeper.keepFirst(outcome);
      keepBesides(keeper, outcome, { ...this.options, module: this.module }, simulator);
      keepers.push(keeper);
    });
    return { folder: out, files: keepers.flatMap(({ names }) => names) };
  }
}

/** @param {Files | undefined} files */
const keptText = (files) => (files === undefined ? "" : `kept in ${files.folder}: ${files.files.join(", ")}\n`);
