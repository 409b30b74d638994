// The referee's thread. It makes a run for each seed that it gets, and sends its outcome. If lines of code are
// wanted, the run is made once more by the same seed, and then each access notes its line.

import { workerData } from "node:worker_threads";
import { Log } from "../memory/log.mjs";
import { onceMore } from "../processes/garbage.mjs";
import { firstDifferent } from "./differing-events.mjs";
import { FirstFailing } from "./order.mjs";
import { PILOTS, Pilots } from "./pilots/pilots.mjs";
import { namedText } from "./words/program-names.mjs";
import { forRacing } from "./races/races.mjs";
import { LINES, RunMaker } from "./run-maker.mjs";
import { RunReporter } from "./run-reporter.mjs";
import { areSame } from "./same.mjs";
import { SourceNames } from "./words/source-names.mjs";
import { OTHER_INPUT } from "./words/summary-words.mjs";

/** @typedef {import("./outcome.mjs").One} One */
/** @typedef {import("./outcome.mjs").Outcome} Outcome */
/** @typedef {import("./outcome.mjs").OutcomeLines} OutcomeLines */
/** @typedef {import("./outcome.mjs").Sent} Sent */
/** @typedef {import("./outcome.mjs").WantedRun} WantedRun */
/** @typedef {import("./run-maker.mjs").RunResult} RunResult */

/**
 * @typedef {object} KnownLines
 * @property {number} lines which of the log's accesses have noted their lines, as `LINES` has it
 * @property {boolean} isFirst whether it may be the first failing run
 */

/** The detail of a run that ends so has its operations with their lines. */
const OF_HISTORIES = new Set(["not linearizable", "lost wake-up"]);

const ANOTHER_WAY = "the run went another way when it was made once more to learn its lines of code";
const BY_AGENTS = "its agents do something else then, as if a module keeps something in its own variables";

/** @param {number[]} gone agents that didn't come back, or whose workers died */
function goneText(gone) {
  const who = gone.length === 1 ? `agent ${gone[0]}` : `the agents ${gone.join(" and ")}`;
  return `${who} didn't come to an end after the run, so the run wasn't made once more to learn its lines of code`;
}

class Referee {
  /**
   * @param {import("./run-maker.mjs").RefereeWorkerData} given
   * @param {() => void} rest awaits another group, when this one ends
   * @param {typeof import("./program-state.mjs").ProgramState} [State] as `RunMaker` has it
   */
  constructor(given, rest, State) {
    const { port, plan, options } = given;
    const sourceNames = new SourceNames(options.module);
    this.port = port;
    this.rest = rest;
    this.plan = plan;
    this.options = options;
    this.maker = new RunMaker(given, sourceNames, State);
    this.reporter = new RunReporter(given, this.maker);
    /** Which lines of code the next run notes at once. If the run before raced, the next one may race there, too. */
    this.linesNext = this.#linesAfter(false, false);
    /** Whether there are accesses that race and whose lines can't be found. */
    this.mayLackLines = false;
    /** The trace of a failing run is made if it may be the first one: others aren't kept. */
    this.firstFailing = new FirstFailing();
    /** How many runs were made since all threads were started anew. */
    this.sinceFresh = 0;
  }

  /** @param {{ seeds?: WantedRun[], learns?: boolean }} work */
  async record({ seeds = [], learns = false }) {
    const { port } = this;
    if (learns) await this.#learn();
    for (const wanted of seeds) {
      if (wanted.learns) await this.#learn();
      if (wanted.isFresh) await this.#startAnew();
      await this.#send(await (wanted.isTrial ? this.#tried(wanted) : this.#one(wanted)));
      this.sinceFresh += 1;
      onceMore();
    }
    this.awaitWork();
    port.postMessage({ finished: true });
  }

  /**
   * Sends what came of a run. If it failed, it is handed on before the next run, whose agents may end the process.
   * @param {Sent} run
   */
  async #send(run) {
    const { port } = this;
    const taken = run.outcome.fails ? new Promise((done) => port.once("message", done)) : undefined;
    port.postMessage(run);
    await taken;
  }

  awaitWork() {
    this.port.once("message", (work) => (work.rests ? this.rest() : this.record(work)));
  }

  /**
   * Learns by pilots where agents meet. A module has other workers afterwards, so that it doesn't remember pilots. A
   * program's threads are kept from run to run, and so from pilots.
   */
  async #learn() {
    const { maker, maker: { board, log, state }, options: { kind } } = this;
    state.forget();
    const pilots = new Pilots(board.rules.agents, board.places, kind.hasMessages);
    let isSeen = true;
    let isLong = false;
    for (let seed = 0; seed < PILOTS && isSeen && !isLong; seed += 1) {
      isSeen = await maker.pilot(seed);
      pilots.add(log);
      isLong = Pilots.isLong(log, maker.accessCount());
      // What is shared in one pilot is so in all.
      isSeen &&= pilots.areWorth(log);
      this.sinceFresh += 1;
    }
    board.mode.isPilot = false;
    if (isSeen) pilots.teach();
    else state.forget();
    if (!kind.keepsThreads) await maker.replace(maker.workers);
  }

  /** @param {WantedRun} wanted @returns {Promise<Sent>} the outcome of a seed */
  async #one(wanted) {
    const { reporter } = this;
    const { found, lines, isCut } = await this.#judged(wanted);
    const brief = reporter.brief(wanted, found);
    const taken = wanted.whole ? reporter.taken(brief, found) : undefined;
    const hasScript = taken === undefined && (wanted.whole || brief.fails);
    const told = { ...brief, ...(hasScript ? reporter.script(brief, found) : {}) };
    const acts = wanted.wantsActs ? { acts: reporter.acts(told, found) } : {};
    // Here the log has all events. The log of a run that is made once more, with lines of code, may lack some reads.
    const judgement = reporter.judgement(told, found, taken);
    const isFirst = !found.isUnseen && this.firstFailing.takes(brief);
    await this.#replace(found);
    const { again, ...known } = await this.#known(wanted, told, found, { lines, isFirst });
    const outcome = { ...told, ...acts, ...known, ...endOf({ ...told, ...known }, found) };
    this.linesNext = this.#linesAfter(found.racy && !isCut, brief.real !== undefined && !isCut);
    return { outcome, judgement, taken, aside: { ...asideOf(found), ...(again === undefined ? {} : { again }) } };
  }

  /**
   * Makes a run, and judges it.
   * @param {WantedRun} wanted
   * @returns {Promise<{ found: RunResult, lines: number, isCut: boolean }>} with which accesses have noted their lines,
   * and whether another run was made, since the log had no room for the lines
   */
  async #judged(wanted) {
    const { maker, maker: { log }, linesNext: lines } = this;
    const found = await maker.made(wanted, lines);
    const isCut = lines !== LINES.NONE && !log.hasRoom();
    if (!isCut) return { found: await maker.judged(found), lines, isCut };
    // Not all accesses have noted their lines, so another run is judged, which notes each of them once.
    await maker.replace(found.gone);
    const other = await maker.made(wanted, LINES.NONE);
    return { found: await maker.judged(other), lines: LINES.NONE, isCut };
  }

  /**
   * What is known about a run by its lines of code, and by a run in fresh threads.
   * @param {WantedRun} wanted
   * @param {Outcome} told
   * @param {RunResult} found
   * @param {KnownLines} known
   * @returns {Promise<OutcomeLines & { again?: import("./outcome.mjs").FirstRunAgain }>}
   */
  async #known(wanted, told, found, known) {
    // A run in fresh threads may get other input, so its lines aren't those of this one.
    const first = told.real === undefined ? {} : await this.#lines(wanted, told, found, known);
    if (!known.isFirst || !this.#mayRemember(wanted, found)) {
      return told.real === undefined ? this.#lines(wanted, told, found, known) : first;
    }
    const outcome = { ...told, ...first };
    const again = await this.#inFreshThreads(wanted, outcome, found);
    const detail = learnedDetail(outcome, again.again);
    if (told.real !== undefined) return { ...first, detail, again };
    const lines = this.maker.log.hasRoom() ? LINES.OF_FIRST : LINES.NONE;
    return { detail, ...await this.#lines(wanted, { ...told, detail }, found, { ...known, lines }), again };
  }

  /** @param {boolean} isRacy @param {boolean} isReal what a run was @returns {number} which lines the next one notes */
  #linesAfter(isRacy, isReal) {
    if (this.options.trace || isReal) return LINES.ALL;
    return isRacy ? LINES.OF_RACES : LINES.NONE;
  }

  /** Where the accesses are that race in the run of the log, accesses note their lines from now on. */
  #noteRaces() {
    const { maker: { board, log }, plan } = this;
    forRacing(log, plan.agents, plan.buffers.length, (one, other) => {
      const from = Math.max(log.fromAt(one), log.fromAt(other));
      board.noted.add(log.blockAt(one), from, Math.min(log.toAt(one), log.toAt(other)));
      return true;
    });
  }

  /** @returns {boolean} whether an access that races in the run of the log has noted no line, though it could */
  #lacksLines() {
    const { maker: { log }, plan } = this;
    let lacks = false;
    forRacing(log, plan.agents, plan.buffers.length, (one, other) => {
      lacks = log.sourceAt(one) === 0 || log.sourceAt(other) === 0;
      return !lacks;
    });
    return lacks && !this.mayLackLines;
  }

  /** All threads are started anew. */
  async #startAnew() {
    await this.maker.replace(this.maker.workers);
    this.sinceFresh = 0;
  }

  /**
   * Whether a program's run may have gone as it did because of what earlier runs have left in the globals of its
   * threads.
   * @param {WantedRun} wanted
   * @param {RunResult} found
   */
  #mayRemember({ row }, { endless }) {
    const { kind, fresh } = this.options;
    // An agent that made no call for long would take as long again.
    return kind.keepsThreads && !fresh && this.sinceFresh > 0 && row === undefined && endless.length === 0;
  }

  /**
   * Makes a run once more in fresh threads. It notes its lines of code.
   * @param {WantedRun} wanted
   * @param {Outcome} outcome
   * @param {RunResult} found
   * @returns {Promise<import("./outcome.mjs").FirstRunAgain>}
   */
  async #inFreshThreads(wanted, outcome, found) {
    const { maker, reporter } = this;
    const acts = reporter.acts(outcome, found);
    const before = Log.from(maker.log.taken());
    maker.board.noted.clear();
    if (found.racy) this.#noteRaces();
    await this.#startAnew();
    const made = await maker.judged(await maker.made({ ...againAs(wanted, outcome), isSilent: true }, LINES.OF_FIRST));
    const other = reporter.brief(wanted, made);
    const again = { ...other, acts: reporter.acts(other, made) };
    const place = reporter.placeOf(firstDifferent(before, maker.log));
    await this.#replace(made);
    const isOther = outcome.real !== undefined && !areSame(outcome, other);
    return { acts, again, place, diverges: made.divergence !== undefined || isOther };
  }

  /** @param {WantedRun} wanted @returns {Promise<One>} a run that is made only to see how it ends */
  async #tried(wanted) {
    const { maker, reporter } = this;
    const { wantsLines = false } = wanted;
    const found = await maker.judged(await maker.made(wanted, wantsLines ? LINES.OF_RACES : LINES.NONE));
    const brief = reporter.brief(wanted, found);
    await this.#replace(found);
    const lines = maker.log.hasRoom() ? LINES.OF_RACES : LINES.NONE;
    const known = wantsLines ? await this.#lines(wanted, brief, found, { lines, isFirst: false }) : {};
    const told = { ...brief, ...known };
    return { outcome: { ...told, ...namesOf(told.detail, found) }, aside: asideOf(found) };
  }

  /**
   * What lines of code show of a run. If its accesses haven't noted them, it is made once more.
   * @param {WantedRun} wanted
   * @param {Outcome} outcome
   * @param {RunResult} found
   * @param {KnownLines} known
   * @returns {Promise<OutcomeLines>}
   */
  async #lines(wanted, outcome, found, { lines, isFirst }) {
    if (found.isUnseen) return {};
    const wantsTrace = this.#isTraceWanted(wanted, isFirst);
    if (!found.racy && !wantsTrace) return {};
    const areThere = lines >= (wantsTrace ? LINES.OF_FIRST : LINES.OF_RACES);
    if (areThere && (lines !== LINES.OF_RACES || !this.#lacksLines())) {
      return this.reporter.lines(outcome.windows, wantsTrace);
    }
    // If the second run isn't the same, this is all that is known.
    const races = found.racy ? this.reporter.races(false) : [];
    // An agent that didn't come back made no call for long, and would take as long again. A parked one did come.
    if (found.endless.length > 0) return { races, ...(wantsTrace ? { noTrace: goneText(found.endless) } : {}) };
    return { races, ...await this.#linesOfSecond(wanted, outcome, found, wantsTrace) };
  }

  /**
   * Makes a run once more, in which accesses note their lines of code.
   * @param {WantedRun} wanted
   * @param {Outcome} outcome
   * @param {RunResult} found
   * @param {boolean} wantsTrace
   * @returns {Promise<OutcomeLines>}
   */
  async #linesOfSecond(wanted, outcome, found, wantsTrace) {
    const { maker, reporter } = this;
    if (wantsTrace) maker.board.noted.clear();
    if (found.racy) this.#noteRaces();
    if (wanted.isFresh) await this.#startAnew();
    const isSilent = wanted.isSilent || this.options.kind.printsOnce;
    const how = wantsTrace ? LINES.OF_FIRST : LINES.OF_RACES;
    const again = await maker.made({ ...againAs(wanted, outcome), isSilent }, how);
    this.mayLackLines ||= found.racy && this.#lacksLines();
    const brief = reporter.brief(wanted, await maker.judgedAgain(again, found));
    const isSame = areSame(brief, outcome) && again.divergence === undefined;
    const detail = learnedDetail(outcome, brief);
    await this.#replace(again);
    if (isSame) return { detail, ...reporter.lines(outcome.windows, wantsTrace) };
    const noTrace = `${ANOTHER_WAY}: ${outcome.real === undefined ? BY_AGENTS : OTHER_INPUT}`;
    return { detail, ...(wantsTrace ? { noTrace } : {}) };
  }

  /** @param {RunResult} run after which workers that can't run again are started anew, or all if the option says so */
  async #replace({ gone }) {
    await this.maker.replace(this.options.fresh ? this.maker.workers : gone);
  }

  /** @param {WantedRun} wanted @param {boolean} isFirst as above @returns {boolean} whether a run's trace is made */
  #isTraceWanted({ isTrial = false, needsTrace = false }, isFirst) {
    return !isTrial && (this.options.trace || needsTrace || isFirst);
  }
}

/**
 * How a run is made once more: by its seed, or by its row if the machine's answers are a part of it.
 * @param {WantedRun} wanted
 * @param {Outcome} outcome
 * @returns {WantedRun}
 */
const againAs = (wanted, { real, row }) =>
  (real === undefined || row === undefined ? wanted : { ...wanted, row, isExact: true });

/**
 * @param {string} detail in which a program's threads and blocks get their names
 * @param {RunResult} found
 * @returns {{ detail?: string, threads?: string[] }}
 */
const namesOf = (detail, { names }) =>
  (names === undefined ? {} : { detail: namedText(detail, names), threads: names.threads });

/**
 * How a run ended, in words, when all is known about it.
 * @param {Outcome} outcome
 * @param {RunResult} found
 * @returns {{ detail: string, threads?: string[] }}
 */
function endOf({ ending, races, detail: known }, found) {
  const detail = ending === "race" ? races.map(({ text }) => text).join("\n") : known;
  return { detail, ...namesOf(detail, found) };
}

/**
 * A run that was made once more and noted its lines may know more about how it ended: where an await is, or where
 * operations of an object are.
 * @param {Outcome} outcome
 * @param {{ detail: string }} again
 * @returns {string} the detail of the outcome
 */
const learnedDetail = ({ ending, detail }, again) =>
  (OF_HISTORIES.has(ending) || (ending === "failed" && again.detail.startsWith(detail)) ? again.detail : detail);

/** @param {RunResult} found @returns {import("./outcome.mjs").Aside} */
const asideOf = ({ waiting, divergence, choices }) =>
  ({ waiting, divergence, ...(choices && { drawsBefore: choices.map((made) => made.map(({ draws }) => draws)) }) });

/** Waits for what it needs to make runs, and then for its work: one group after the other. */
export function main() {
  const { port } = workerData;
  port.once("message", async (/** @type {Omit<import("./run-maker.mjs").RefereeWorkerData, "port">} */ given) => {
    const State = given.options.kind.isPlain ? undefined : (await import("./program-state.mjs")).ProgramState;
    new Referee({ port, ...given }, main, State).awaitWork();
  });
}
