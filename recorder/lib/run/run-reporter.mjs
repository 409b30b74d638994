// Makes the parts of the outcome of the run that was made last. Each outcome has the brief part. Some have the script
// and its report, or what lines of code show: unordered accesses and the trace.

import { createHash } from "node:crypto";
import { choicesText } from "../../script/choices.mjs";
import { CopiedRuns } from "../memory/copied-runs.mjs";
import { Records } from "../memory/records.mjs";
import { Sources } from "../memory/sources.mjs";
import { Names } from "../options/names.mjs";
import { preloads } from "../processes/preloads.mjs";
import { chosenTasks, choicesOf } from "./script/choice-tasks.mjs";
import { accessesIn } from "./script/array-accesses.mjs";
import { standstillOf, thrownIn } from "./ending/failure.mjs";
import { raceReports } from "./races/race-reports.mjs";
import { FinalStates } from "./ending/final-state.mjs";
import { scriptWithinLimits } from "./script/script-within-limits.mjs";
import { answersOf, textsOf } from "./script-texts.mjs";
import { askingLines, standingsOf, waitText, waitsOf } from "./ending/standing.mjs";
import { earlyText, onlyByTimeOf, servedOf } from "./ending/timed-ends.mjs";
import { UNSEEN_LINE, placesIn, traceText, unseenLine } from "./script/trace.mjs";
import { transcriptOf } from "./script/transcript.mjs";
import { NO_SCRIPT, realIn, unrecordedIn } from "./words/unseen-text.mjs";

/** @typedef {import("./outcome.mjs").BriefOutcome} BriefOutcome */
/** @typedef {import("./outcome.mjs").OutcomeScript} OutcomeScript */
/** @typedef {import("./outcome.mjs").OutcomeLines} OutcomeLines */
/** @typedef {import("./run-maker.mjs").RunResult} RunResult */
/** @typedef {import("./windows/in-windows.mjs").Written} Written */
/** @typedef {import("../memory/task-notes.mjs").TaskNote} TaskNote */

/** How a run ends that doesn't fail. */
const PASSING = ["finished", "cut", "blocked"];

export class RunReporter {
  /** @param {import("./run-maker.mjs").RefereeWorkerData} given @param {import("./run-maker.mjs").RunMaker} maker */
  constructor({ memory, plan, options }, maker) {
    this.maker = maker;
    this.options = options;
    this.sourceNames = maker.sourceNames;
    this.sources = memory.sources.map((each) => new Sources(each));
    this.run = {
      log: maker.log, records: memory.records.map((each) => new Records(each)), lengths: plan.buffers,
      canBlock: plan.canBlock, names: new Names(plan.names),
    };
    this.copies = new CopiedRuns(memory.runs);
    this.states = new FinalStates(plan.names);
    /** @type {{ found: RunResult, written: Written | undefined } | undefined} what was asked for last */
    this.last = undefined;
    /**
     * Whether each ordinary access is seen: code that was loaded before the recorder may make some that aren't watched.
     */
    this.seesAll = options.ordinary === "watch" && !preloads();
  }

  /**
   * @param {import("./outcome.mjs").WantedRun} wanted
   * @param {RunResult} found
   * @returns {BriefOutcome}
   */
  brief({ seed }, found) {
    const { maker, options } = this;
    const { ending, detail } = found;
    const { deadlines, journal, row } = maker.board;
    const draws = row.own();
    const unrecorded = unrecordedIn(found.unseen, this.sourceNames.placeName);
    const real = realIn(found.real ?? [], this.sourceNames.placeName);
    const isAllowed = (ending === "limit" && options.limits === "allow")
      || (ending === "stuck" && options.stuck === "allow");
    const fails = !PASSING.includes(ending) && !isAllowed;
    const early = deadlines.early();
    const missed = maker.state.whyMissed;
    return {
      seed,
      ending,
      fails,
      detail,
      moves: journal.moves(),
      calls: maker.callCount(),
      ordinary: maker.accessCount(),
      progress: maker.agents.map((agent) => journal.progress(agent)),
      state: this.states.of(ending, maker.state.own(found.bytes), found.more),
      races: [],
      ...(draws === undefined || (options.isBrief && !fails) ? {} : { row: draws }),
      ...(found.choices === undefined || (options.isBrief && !fails) ? {} : { choices: choicesOf(found.choices) }),
      ...(missed === undefined ? {} : { noScript: missed }),
      ...(unrecorded.length === 0 ? {} : { unrecorded }),
      ...(real.length === 0 ? {} : { real }),
      ...(fails && early !== undefined ? { onlyIf: earlyText(early) } : {}),
      ...(maker.board.spins.isWatching() ? this.#timedEnds(ending) : {}),
    };
  }

  /** @param {string} ending of a run that has timed waits @returns {Pick<BriefOutcome, "onlyByTime" | "served">} */
  #timedEnds(ending) {
    const { run: { log, records }, sources, sourceNames } = this;
    const served = servedOf(log);
    if (ending !== "finished") return { served };
    const lineOf = (/** @type {number} */ agent, /** @type {number} */ number) => {
      const place = number === 0 ? "" : sources[agent].list()[number];
      return place === "" ? null : sourceNames.nameOf(place);
    };
    return { onlyByTime: onlyByTimeOf(log, records, lineOf), served };
  }

  /**
   * The script and its report, for a run that fails or is to be checked.
   * @param {BriefOutcome} brief
   * @param {RunResult} found
   * @returns {OutcomeScript}
   */
  script(brief, found) {
    if (found.isUnseen) return { noScript: NO_SCRIPT };
    const { maker: { state, agents }, options, run } = this;
    const written = this.#writtenOf(found);
    const windows = written?.windows === undefined ? {} : { windows: written.windows };
    const why = brief.noScript ?? state.whyNoScript(written);
    if (written === undefined || why !== undefined) {
      return { ...windows, ...this.#failure(brief, found, transcriptOf(run, [])), noScript: why };
    }
    const fit = scriptWithinLimits(written.run, written.stores, found.initial, written.bytes);
    const failure = this.#failure(brief, found, written.windows === undefined ? fit.transcript : transcriptOf(run, []));
    const answers = brief.fails || !options.isBrief ? answersOf(fit, written.bytes, agents.length) : {};
    return { ...windows, ...failure, ...answers, ...textsOf(fit) };
  }

  /**
   * @param {RunResult} found
   * @returns {Written | undefined} the run as its script and its trace have it, if they can
   */
  #writtenOf(found) {
    if (this.last?.found !== found) this.last = { found, written: this.#written(found.bytes) };
    return this.last.written;
  }

  /**
   * @param {string[]} bytes of each block at the end, in hexadecimal digits
   * @param {OutcomeScript["windows"]} [windows] those of its script, if it has some
   * @returns {Written | undefined} the run of the log, as its script and its trace have it, if they can
   */
  #written(bytes, windows) {
    const { maker: { state, stores }, run, sourceNames } = this;
    const made = { run: { ...run, isOrdinary: this.#isOrdinary() }, stores, bytes };
    return state.inWindows(made, (text) => sourceNames.withNames(text), windows);
  }

  /**
   * Copies of what was written down of a run, if another thread can make its script and report of them. It can if the
   * run has passed by itself: then nothing else in its outcome is made from its calls.
   * @param {BriefOutcome} brief
   * @param {RunResult} found
   * @returns {import("./run-snapshot.mjs").RunSnapshot | undefined}
   */
  taken({ ending, fails }, { initial, bytes }) {
    const { maker, maker: { stores }, run: { log, records } } = this;
    const isPlain = this.options.kind.isPlain && initial.length === 0 && stores.isWhole();
    if (!isPlain || fails || ending !== "finished") return undefined;
    const calls = maker.agents.map((agent) => maker.board.journal.progress(agent).calls);
    return { copy: this.copies.copy(log, records, stores, calls), bytes, isOrdinary: this.#isOrdinary() };
  }

  /**
   * A digest of all that was done, for a comparison with another run.
   * @param {BriefOutcome & OutcomeScript} outcome
   * @param {RunResult} found
   * @returns {string}
   */
  acts(outcome, found) {
    const hasTexts = outcome.script !== undefined || outcome.noScript !== undefined;
    const { script, report, noScript } = hasTexts ? outcome : this.script(outcome, found);
    const chosen = found.choices === undefined ? "" : ` ${choicesText(choicesOf(found.choices))}`;
    return createHash("sha256").update(`${script} ${report} ${noScript}${chosen}`).digest("base64");
  }

  /**
   * Where an event was made, if its run has noted lines of code.
   * @param {import("../memory/log.mjs").LogEvent} [event]
   * @returns {string | undefined}
   */
  placeOf(event) {
    const source = event === undefined ? undefined : this.sources[event.agent].list()[event.source];
    return source === undefined || source === "" ? undefined : this.sourceNames.nameOf(source);
  }

  /**
   * The unordered accesses, with their lines of code if these are known.
   * @param {boolean} notesSources
   */
  races(notesSources) {
    const { run, sources, sourceNames } = this;
    const lists = notesSources ? sources.map((each) => each.list()) : [];
    return raceReports({ run, transcript: transcriptOf(run, []), sources: lists, sourceNames });
  }

  /**
   * The unordered accesses and the trace of a run whose accesses have noted their lines of code.
   * @param {OutcomeScript["windows"]} windows those of its script, if it has some
   * @param {boolean} wantsTrace
   * @returns {OutcomeLines}
   */
  lines(windows, wantsTrace) {
    const races = this.options.ordinary === "watch" ? this.races(true) : [];
    if (!wantsTrace) return { races };
    const written = this.#written([], windows);
    if (written === undefined) return { races, noTrace: this.maker.state.whyNoScript(written) };
    // If some are found, no verdict on the trace says that there are none.
    const firstLine = races.length === 0 ? this.#firstLine() : "";
    return {
      races, ...(written.windows === undefined ? {} : { windows: written.windows }), ...this.#trace(written, firstLine),
    };
  }

  /**
   * @param {Written} written
   * @param {string} firstLine
   * @returns {OutcomeLines}
   */
  #trace(written, firstLine) {
    const { run: { log }, sourceNames, maker: { state: { tasks: begun } } } = this;
    const chosen = chosenTasks(this.maker.chosen() ?? [], this.sources);
    const names = this.sources.map((each) => each.list().map((/** @type {string} */ place) =>
      place === "" ? "" : sourceNames.nameOf(place)));
    const tasks = this.#named(begun?.list() ?? chosen);
    return {
      trace: firstLine + traceText(written.run.log, names),
      accesses: accessesIn(written.run.log, written.run.lengths),
      sources: sourceNames.textsOf([...placesIn(log, names), ...tasks.flatMap(({ source }) => source ?? [])]),
      ...(begun === undefined && chosen.length === 0 ? {} : { tasks }),
      ...(begun === undefined ? {} : { messages: begun.messages() }),
    };
  }

  /** @returns {string} what a trace begins with if a verdict on its events could be wrong, or else nothing */
  #firstLine() {
    const { maker: { state: { whyMissed } }, run: { log } } = this;
    if (whyMissed !== undefined) return unseenLine(whyMissed);
    return this.seesAll && log.hasRoom() ? "" : UNSEEN_LINE;
  }

  /** @param {TaskNote[]} tasks @returns {import("./outcome.mjs").LoopTask[]} */
  #named(tasks) {
    const sourceOf = (/** @type {string} */ place) => (place === "" ? null : this.sourceNames.nameOf(place));
    return tasks.map(({ place, ...task }) => ({ ...task, source: sourceOf(place) }));
  }

  /**
   * Whether unordered accesses were found, if the outcome has the script, so that both can be checked.
   * @param {OutcomeScript} outcome
   * @param {RunResult} found
   * @param {import("./run-snapshot.mjs").RunSnapshot} [taken] of which the outcome gets its script
   * @returns {import("./outcome.mjs").SentJudgement | undefined}
   */
  judgement({ script }, found, taken) {
    const hasScript = script !== undefined || taken !== undefined;
    if (found.isUnseen || this.options.ordinary !== "watch") return undefined;
    if (!hasScript && this.options.kind.isPlain) return undefined;
    const { racy, initial } = found;
    const written = taken === undefined ? this.#writtenOf(found) : undefined;
    if (taken === undefined && written === undefined) return undefined;
    // The stores of `init` are none of the run's accesses, and ordinary reads are in no script. And in a script nothing
    // orders a helper's wait with what its thread does meanwhile.
    const isOrdinary = written?.run.isOrdinary ?? this.#isOrdinary();
    const hasHelpers = (this.maker.board.waiters?.joined ?? 0) > 0;
    const isInScript = hasScript && !isOrdinary && initial.length === 0 && !hasHelpers;
    return { racy, isInScript, ...(written === undefined ? {} : { events: written.run.log.taken() }) };
  }

  /**
   * What made a run fail. The detail of a deadlock or a limit has where agents wait, or ask for a call.
   * @param {BriefOutcome} brief
   * @param {RunResult} found
   * @param {import("../../script/text.mjs").Transcript} transcript
   * @returns {Pick<OutcomeScript, "detail" | "standing" | "failure">}
   */
  #failure({ ending, fails, detail }, { about, waiting, asking, met }, transcript) {
    const { sources, sourceNames } = this;
    const isAnywhere = waiting.length + asking.length > 0 || met !== undefined;
    const places = isAnywhere ? sources.map((each) => each.marked()) : [];
    /** @param {number} agent */
    const sourceOf = (agent) => (places[agent] === "" ? "" : sourceNames.nameOf(places[agent]));
    const waits = waitsOf(waiting, transcript, sourceOf);
    const stands = [...waits.map(waitText), ...askingLines(asking, transcript, sourceOf)];
    const isStill = ending === "deadlock" || ending === "limit" || ending === "lost wake-up";
    const isThrown = ending === "failed" || ending === "check";
    const said = about === undefined ? detail : about;
    const failure = () => (isThrown ? thrownIn(detail, sourceNames) : standstillOf(said, waits));
    return {
      detail: [detail, ...stands].filter((line) => line !== "").join("\n"),
      ...(isStill ? { standing: standingsOf({ met, waits, asking }, transcript, sourceOf) } : {}),
      ...(!fails || ending === "race" ? {} : { failure: failure() }),
    };
  }

  /** @returns {boolean} whether ordinary accesses were made, or may have been made unseen */
  #isOrdinary() {
    return !this.seesAll || this.run.log.hasOrdinary();
  }
}
