// Makes the runs of a group, by a seed or by a row. It clears what an earlier run left, calls for `init`, waits for the
// end, looks for unordered accesses, and calls for `check`.

import { Board } from "../board/board.mjs";
import { Choices } from "../memory/choice-list.mjs";
import { NOBODY, ORDER } from "../memory/layout.mjs";
import { OperationList } from "../memory/operation-list.mjs";
import { RecordedMemory } from "../memory/recorded-memory.mjs";
import { Notes } from "../memory/notes.mjs";
import { Sources } from "../memory/sources.mjs";
import { agentsState } from "./agents-state.mjs";
import { historyOf } from "./ending/run-history.mjs";
import { initialStores } from "./initial.mjs";
import { isRacy } from "./races/races.mjs";
import { divergenceText } from "./words/divergence-text.mjs";
import { unseenText } from "./words/unseen-text.mjs";

/** @typedef {import("./outcome.mjs").WantedRun} WantedRun */
/** @typedef {import("./words/unseen-text.mjs").AgentsNote} AgentsNote */

/**
 * @typedef {object} RunResult how a run ended
 * @property {import("./outcome.mjs").Ending} ending
 * @property {string} detail
 * @property {string[]} bytes of each block, in hexadecimal digits
 * @property {number[]} gone agents that can't run again
 * @property {number[]} endless those of them that aren't parked: another run would take as long
 * @property {boolean} racy
 * @property {import("../memory/stores.mjs").Store[]} initial what filled the buffers at first
 * @property {{ agent: number, block: number, byte: number }[]} waiting who waits where, in order of arrival, in a run
 * that ended by a deadlock or at a limit
 * @property {number[]} asking agents that asked for a call when a run met a limit
 * @property {import("../board/end.mjs").Met} [met] who met it
 * @property {AgentsNote[]} unseen what agents did that nobody saw
 * @property {boolean} [isUnseen] whether it fails for that
 * @property {AgentsNote[]} [real] what agents of a program used that the machine answers
 * @property {import("../board/drawn-schedule.mjs").Divergence} [divergence] how it has diverged from the row that it
 * was to go by
 * @property {import("./words/program-names.mjs").ProgramNames} [names] of a program's threads and blocks
 * @property {import("./ending/final-state.mjs").MoreBytes} [more] of a program, in blocks that no script can have
 * @property {import("../memory/choice-list.mjs").ChoiceMade[][]} [choices] of each agent, if one has made some
 * @property {string} [about] of a run of an object whose history doesn't fit: what was found, in short
 */

/**
 * @typedef {object} RefereeOptions
 * @property {string} module the URL of the agents' module
 * @property {number} seconds for how long an agent may make no call
 * @property {boolean} fresh
 * @property {boolean} trace
 * @property {boolean} [isBrief] whether outcomes of runs that pass have no bytes and answers
 * @property {"watch" | "store" | "refuse"} ordinary
 * @property {"fail" | "allow"} races
 * @property {"fail" | "allow"} limits
 * @property {"fail" | "allow"} unrecorded
 * @property {"library" | "module" | undefined} init whose it is, if there is one
 * @property {"library" | "module" | undefined} check whose it is, if there is one
 * @property {boolean} hasCaller whether one of them is the module's: a worker of its own calls it
 * @property {"fail" | "allow"} [stuck] whether a run of a program that is stuck fails
 * @property {import("../options/run-kinds.mjs").RunKind} kind of the runs
 */

/**
 * @typedef {object} RefereeWorkerData what the referee's thread is started with
 * @property {import("node:worker_threads").MessagePort} port
 * @property {ReturnType<typeof import("../board/group-memory.mjs").memoryOf>} memory
 * @property {import("../options/plan.mjs").Plan} plan
 * @property {import("../board/strategy.mjs").Rules} rules
 * @property {RefereeOptions} options
 */

// How long an agent's own code has to come to its end when its run has ended, before its worker is started anew.
const GRACE_MILLISECONDS = 200;
const ENDLESS = "didn't come to its end";

const NOTHING_TRIED = "no agent has made a call of Atomics, or another access that is seen, on the recorded buffers: "
  + "nothing was tried";

/**
 * Which accesses of a run note their lines of code: how many of the ordinary ones do, wherever they are. Those in the
 * board's `noted` places do besides, and so does each call of Atomics, except with `NONE`.
 */
export const LINES = Object.freeze({ NONE: -1, OF_RACES: 0, OF_FIRST: 4_096, ALL: 2 ** 30 });

export class RunMaker {
  /**
   * @param {RefereeWorkerData} given
   * @param {import("./words/source-names.mjs").SourceNames} sourceNames
   * @param {typeof import("./program-state.mjs").ProgramState} [State] of the runs; that of agents if it isn't given
   */
  constructor({ port, memory, plan, rules, options }, sourceNames, State) {
    this.port = port;
    this.plan = plan;
    this.options = options;
    this.sourceNames = sourceNames;
    this.board = new Board(memory.board, rules);
    this.memory = new RecordedMemory(memory.buffers, memory.copies);
    this.log = this.board.logIn(memory.log);
    this.stores = this.board.storesIn(memory.stores, this.memory);
    this.notes = memory.notes.map((each) => new Notes(each));
    this.choices = memory.choices.map((each) => new Choices(each));
    this.operations = memory.operations?.map((each) => new OperationList(each));
    this.sources = memory.sources.map((each) => new Sources(each));
    this.agents = plan.canBlock.map((_, agent) => agent);
    /** @type {import("./agents-state.mjs").RunState} */
    this.state = State === undefined ? agentsState(this.memory, this.agents)
      : new State(/** @type {any} */ (memory), this.board, this.memory, plan);
  }

  /** @returns {number[]} all workers, for each of which another one can be started */
  get workers() {
    return this.options.hasCaller ? [...this.state.all, this.plan.agents] : this.state.all;
  }

  /**
   * One run, by a seed, or by a row.
   * @param {WantedRun} wanted
   * @param {number} lines one of `LINES`: which accesses note their lines of code
   * @returns {Promise<RunResult>}
   */
  async made(wanted, lines) {
    const { board, memory, plan, options, sourceNames, state } = this;
    this.#clear(wanted);
    board.mode.isSilent = wanted.isSilent === true;
    const problem = options.init === undefined ? "" : await this.#asked("init");
    const initial = options.init === undefined ? [] : initialStores(memory, plan.agents);
    if (problem !== "") {
      const none = { gone: [], endless: [], racy: false, waiting: [], asking: [], unseen: [] };
      const nothing = { ...none, bytes: memory.hex(), initial };
      return { ending: "failed", detail: `init ${problem}`, ...nothing };
    }
    board.mode.noteLines(lines);
    board.begin(wanted.seed);
    const result = await this.#ended();
    this.agents = state.learn();
    const divergence = board.row.diverged();
    const bytes = memory.hex();
    const isAtLimit = result.ending === "limit";
    const waiting = isAtLimit || result.ending === "deadlock" ? board.line.waiting() : [];
    const asking = isAtLimit ? this.agents.filter((agent) => board.line.asks(agent)) : [];
    const met = isAtLimit ? board.end.met() : undefined;
    const gone = this.#cancelled();
    const endless = gone.filter((agent) => !board.turn.isParked(agent));
    const racy = options.ordinary === "watch" && isRacy(this.log, plan.agents, plan.buffers.length);
    const named = state.named(result.detail, isAtLimit || divergence?.reason === "choice", sourceNames);
    const still = state.standstill(result.ending, sourceNames);
    const told = [named, ...still].filter((line) => line !== "");
    const detail = divergence === undefined ? told.join("\n") : divergenceText(divergence, named);
    const notes = this.agents.flatMap((agent) => this.notes[agent].read().map((note) => ({ ...note, agent })));
    const unseen = notes.filter(({ kind }) => kind !== "real");
    const real = notes.filter(({ kind }) => kind === "real");
    const names = state.names((text) => sourceNames.withNames(text));
    const more = state.moreBytes();
    const { ending } = result;
    const ended = { ending, detail, bytes, gone, endless, racy, initial, waiting, asking, met };
    return { ...ended, unseen, real, divergence, names, more, choices: this.chosen() };
  }

  /**
   * @param {RunResult} found
   * @returns {Promise<RunResult>} how a run ends, with what is known when its agents are idle
   */
  async judged(found) {
    const { check, races, unrecorded, kind } = this.options;
    const unseen = unseenText(found.unseen, unrecorded, this.sourceNames.placeName);
    if (unseen !== "" && found.divergence === undefined) return failedFor(unseen, found);
    const isRace = found.racy && races === "fail";
    const verdict = isRace && found.ending === "finished" ? undefined : await this.#verdict(found);
    // With a race the history isn't known.
    if (verdict !== undefined && !isRace) return { ...found, ...verdict };
    if (verdict !== undefined && found.ending === "deadlock") return { ...found, ending: "race", detail: "" };
    if (found.ending !== "finished") return found;
    const isEmpty = kind.mustCall && this.#triedNothing() && !hasChosenNothing(found.choices);
    if (isEmpty) return { ...found, ending: "failed", detail: NOTHING_TRIED };
    const problem = check === undefined ? "" : await this.#asked("check");
    if (problem !== "") return { ...found, ending: "check", detail: `check ${problem}` };
    return found.racy && races === "fail" ? { ...found, ending: "race" } : found;
  }

  /** @param {number} agent @param {number} event of the log @returns {string | undefined} its line, if it was noted */
  #lineOf(agent, event) {
    const { log, sourceNames, sources } = this;
    const number = log.sourceAt(event);
    return number === 0 ? undefined : sourceNames.nameOf(sources[agent].list()[number]);
  }

  /**
   * @param {RunResult} found
   * @returns {Promise<import("../objects/history.mjs").Verdict | undefined>} what the history of a run of an object
   * changes about how it ends
   */
  async #verdict({ ending }) {
    const { log, operations } = this;
    if (operations === undefined || ending === "failed") return undefined;
    const events = historyOf(operations.map((each) => each.read()), log, this.#lineOf.bind(this));
    return (await this.#answered({ history: { events, ending } })).verdict;
  }

  /**
   * How a run ends that was made once more. A check that didn't end before isn't called again, since it would take as
   * long again.
   * @param {RunResult} again
   * @param {RunResult} found the run as it was made before
   * @returns {Promise<RunResult>}
   */
  async judgedAgain(again, { ending, detail }) {
    const isEndless = ending === "check" && detail.startsWith(`check ${ENDLESS}`);
    return isEndless && again.ending === "finished" ? { ...again, ending, detail } : this.judged(again);
  }

  /**
   * Makes a pilot, a run without an outcome.
   * @param {number} seed
   * @returns {Promise<boolean>} whether everything that the agents did was seen
   */
  async pilot(seed) {
    const { board, options } = this;
    this.#clear({ seed, whole: false });
    board.mode.isPilot = true;
    if (options.init !== undefined && (await this.#asked("init")) !== "") return false;
    // Else the first agent that is looked at would seem to have written what `init` left, and end the pilot.
    if (options.init !== undefined) initialStores(this.memory, this.plan.agents);
    board.mode.noteLines(LINES.NONE);
    board.mode.isSilent = true;
    board.begin(seed, true);
    const isSilent = board.turn.awaitEnd(Math.min(options.seconds, options.kind.pilotSeconds));
    this.agents = this.state.learn();
    await this.replace(this.#cancelled());
    // If ordinary reads aren't seen, nobody knows what an agent does between its calls.
    const isHidden = options.ordinary !== "watch" && this.stores.count > 0;
    return !isSilent && !isHidden;
  }

  /**
   * Asks for new workers, and waits until they are there.
   * @param {number[]} gone
   */
  async replace(gone) {
    if (gone.length > 0) await this.#answered({ replace: gone });
  }

  /** Whether the agents made no call and no access, as far as it is seen, on recorded memory. */
  #triedNothing() {
    return this.callCount() + this.accessCount() + this.stores.count === 0;
  }

  /** How many calls of Atomics were begun. */
  callCount() {
    return this.agents.reduce((sum, agent) => sum + this.board.journal.progress(agent).calls, 0);
  }

  /** How many ordinary reads and writes were seen. */
  accessCount() {
    return this.agents.reduce((sum, agent) => sum + this.board.journal.ordinary(agent), 0);
  }

  /**
   * Leaves nothing of an earlier run.
   * @param {WantedRun} wanted
   */
  #clear(wanted) {
    this.state.begin();
    this.board.row.begin(wanted);
    // `init` may look at the clock, and draw by the seed.
    this.board.clock.begin(wanted.seed);
    this.log.begin();
    this.stores.begin();
    this.board.journal.begin();
    this.board.deadlines.begin();
    for (const notes of this.notes) notes.clear();
    this.choices.forEach((choices, agent) => choices.begin(wanted.choices?.[agent], wanted.isExact));
    this.operations?.forEach((each) => each.begin());
  }

  /** @returns {RunResult["choices"]} those of the run that was made last */
  chosen() {
    return this.choices.some(({ count }) => count > 0) ? this.choices.map((each) => each.made()) : undefined;
  }

  /**
   * Asks for the module's `init` or `check` to be run, or the library's.
   * @param {"init" | "check"} name
   * @returns {Promise<string>} what went wrong in it, as "threw ..", or nothing
   */
  async #asked(name) {
    const { board, options } = this;
    if (options[name] === "library") return (await this.#answered({ ask: name })).problem;
    // In pilots it is agent 0's worker, which another one follows.
    const caller = options.hasCaller && !board.mode.isPilot ? this.plan.agents : 0;
    board.order(name === "init" ? ORDER.INIT : ORDER.CHECK, caller);
    const { ending, detail } = await this.#ended();
    if (!board.turn.isBack(caller, GRACE_MILLISECONDS)) await this.replace([caller]);
    const named = this.state.named(detail, ending !== "finished", this.sourceNames);
    return ending === "finished" ? named : `${ENDLESS}: ${named}`;
  }

  /**
   * Waits for the end. If an agent made no call for too long, the main thread finds out where it is.
   * @returns {Promise<ReturnType<Board["end"]["result"]>>}
   */
  async #ended() {
    const { end, turn } = this.board;
    turn.awaitEnd(this.options.seconds);
    const result = end.result();
    if (turn.silent === NOBODY) return result;
    const { place } = await this.#answered({ locate: turn.silent });
    return place === undefined ? result : { ...result, detail: `${result.detail}: it is at ${place}` };
  }

  /** Cancels the agents. @returns {number[]} those that can't run again */
  #cancelled() {
    this.board.cancelAll();
    return this.agents.filter((agent) => !this.board.turn.isBack(agent, GRACE_MILLISECONDS));
  }

  /** @param {object} message @returns {Promise<any>} what another thread replies to a message */
  #answered(message) {
    return new Promise((done) => {
      this.port.once("message", done);
      this.port.postMessage(message);
    });
  }
}

/**
 * @param {RunResult["choices"]} choices
 * @returns {boolean} whether they may be why agents did nothing: none went on, or one chose what it does
 */
function hasChosenNothing(choices) {
  if (choices === undefined) return false;
  const all = choices.flat().map(({ choice }) => choice);
  return all.some(([does]) => does !== "again") || !all.some(([, goesOn]) => goesOn);
}

/**
 * How a run ends in which agents did what nobody saw. What an agent threw comes after that; another ending isn't known.
 * @param {string} unseen
 * @param {RunResult} found
 * @returns {RunResult}
 */
function failedFor(unseen, found) {
  const own = found.ending === "failed" && found.detail !== "" ? `\n${found.detail}` : "";
  return { ...found, ending: "failed", detail: `${unseen}${own}`, racy: false, waiting: [], isUnseen: true };
}
