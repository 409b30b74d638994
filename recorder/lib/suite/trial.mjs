// A trial of a module of agents, or of a program, in somebody's test suite: it fails if a run fails.

import { resolve } from "node:path";
import { OnlyByTimeWaits, onlyByTimeLines } from "../command/only-by-time.mjs";
import { isExpected, messageOf } from "../command/problems.mjs";
import { keepBesides } from "../keeping/kept-besides.mjs";
import { RunStore, missingFiles } from "../keeping/run-store.mjs";
import { runsOf } from "../library/explore.mjs";
import { checkedOwn } from "../library/library-options.mjs";
import { needFittingAll } from "../options/of-all.mjs";
import { comesBefore } from "../run/order.mjs";
import { countText, digits } from "../run/words/summary-words.mjs";
import { rememberingText } from "../seeds/first-again.mjs";
import { simulatorAt } from "../simulator/chosen.mjs";
import { failureText } from "./failure-text.mjs";
import { keptFolder } from "./kept-folder.mjs";
import { RunFailed, stackOf } from "./run-failed.cjs";

/** @typedef {import("../library/record-runs.mjs").RecordedOutcome} RecordedOutcome */
/** @typedef {import("../seeds/runs.mjs").Runs} Runs */
/** @typedef {import("../library/library-options.mjs").TrialOptions} TrialOptions */
/** @typedef {import("../library/library-options.mjs").ProgramTrialOptions} ProgramTrialOptions */
/** @typedef {TrialOptions | ProgramTrialOptions} AnyTrialOptions */
/** @typedef {import("../library/caller.cjs").Caller} Caller */

/** What the runs of a trial that passed have in common. */
class Passed {
  count = 0;
  checked = 0;
  unchecked = "";
  /** @type {Set<string>} what agents used that isn't recorded */
  used = new Set();
  onlyByTime = new OnlyByTimeWaits();

  /** @param {RecordedOutcome} outcome of a run that passed */
  add(outcome) {
    this.count += 1;
    if (outcome.checked) this.checked += 1;
    else this.unchecked = outcome.unchecked ?? "";
    for (const what of outcome.unrecorded ?? []) this.used.add(what);
    this.onlyByTime.add(outcome);
  }

  /** @param {string[]} besides further sentences @returns {string} what is to be said if no run failed */
  text(besides) {
    const { checked, unchecked } = this;
    const checks = checked > 0 ? `${digits(checked)} checked by the simulator` : `none checked: ${unchecked}`;
    const used = [...this.used].join(", ");
    const unseen = used === "" ? [] : [`agents used what isn't recorded, which is allowed: ${used}`];
    const line = [`${countText(this.count, "run")} passed, ${checks}`, ...unseen, ...besides].join("; ");
    return [line, ...onlyByTimeLines(this.onlyByTime.data(), this.count)].join("\n");
  }
}

/**
 * What is thrown for a problem. The recorder's own frames say nothing about one that is expected.
 * @param {unknown} problem
 * @param {string | undefined} place where the trial is asked for
 */
function atCaller(problem, place) {
  if (!(problem instanceof Error) || place === undefined || !isExpected(problem)) return problem;
  problem.stack = stackOf(problem, place);
  return problem;
}

/**
 * Makes runs until one fails. If it fails only after the early end of a timed wait, runs are made until one fails
 * without that.
 * @param {AnyTrialOptions} given
 * @param {Caller} caller
 * @returns {Promise<string>} what is to be said if none failed; fails with RunFailed if one did
 */
export async function tried(given, caller) {
  try {
    return await passedOf(given, caller);
  } catch (problem) {
    throw atCaller(problem, caller.place);
  }
}

/** @param {AnyTrialOptions} given @param {Caller} caller @returns {Promise<string>} as above */
async function passedOf(given, caller) {
  const { all, out, shorten = true, ...options } = checkedOwn(given);
  if (all === true) {
    const { everyTried } = await import("./every-trial.mjs");
    return everyTried(/** @type {any} */ (options), caller);
  }
  needFittingAll(options, (name) => `\`${name}\``, false);
  const passed = new Passed();
  /**
   * @type {{ outcome: RecordedOutcome, before: number } | undefined} the first failing run, and how many passed before
   * it
   */
  let first;
  /** @type {string[]} */
  let besides = [];
  const runs = runsOf({ ...options, failFast: true }, caller.folder);
  try {
    for await (const outcome of runs.outcomes()) {
      if (!outcome.fails) passed.add(outcome);
      else if (first === undefined || comesBefore(outcome, first.outcome)) first = { outcome, before: passed.count };
    }
    if (first !== undefined) {
      const text = await failureOf(runs, first.outcome, first.before, { out, shorten, caller });
      throw new RunFailed(text, caller.place);
    }
    besides = await rememberingLines(runs);
  } finally {
    await runs.close();
  }
  return passed.text(besides);
}

/** @param {Runs} runs @returns {Promise<string[]>} how the first seed's run differed when it was made once more */
async function rememberingLines(runs) {
  const found = await runs.firstAgain();
  return found === undefined ? [] : [rememberingText(found)];
}

/**
 * What is reported about a run that fails, and what can't be kept or explained.
 * @param {Runs} runs
 * @param {RecordedOutcome} failing
 * @param {number} passed how many runs of lower seeds passed
 * @param {{ out?: string, shorten: boolean, caller: Caller }} about
 * @returns {Promise<string>}
 */
async function failureOf(runs, failing, passed, { out, shorten, caller }) {
  const { options } = runs;
  const { module, sabsim } = options;
  const simulator = simulatorAt(sabsim || undefined);
  const besides = await rememberingLines(runs);
  const { shortest } = shorten ? await runs.shorten(failing) : { shortest: undefined };
  const outcome = shortest ?? failing;
  await runs.showOutput(failing, shortest);
  const folder = () => out ?? keptFolder(module, testOf(caller));
  const kept = [...besides, ...keptLines({ failing, outcome }, options, folder, simulator)];
  return failureText({ outcome, passed, simulator, module, kept });
}

/**
 * @param {Caller} caller
 * @returns {string} by which its test differs from others: a line may move, unless it has no name
 */
function testOf({ name, place = "" }) {
  return name === undefined ? place : `${place.replace(/(?::\d+){2}$/, "")}\n${name}`;
}

/**
 * Keeps a run.
 * @param {{ failing: RecordedOutcome, outcome: RecordedOutcome }} runs the one that has failed, and the shortest that
 * fails so
 * @param {Runs["options"]} options of the runs
 * @param {() => string} folder where
 * @param {import("../simulator/chosen.mjs").ChosenSimulator} simulator
 * @returns {string[]} which files are where, and which aren't kept
 */
function keptLines({ failing, outcome }, options, folder, simulator) {
  try {
    const keeper = new RunStore(resolve(folder()), "`out`");
    keeper.keepFirst(failing);
    if (outcome !== failing) keeper.keepShortest(failing, outcome);
    const { notKept, notes } = keepBesides(keeper, outcome, options, simulator);
    const kept = keeper.names.length === 0 ? [] : [`kept in ${keeper.folder}: ${keeper.names.join(", ")}`];
    return [...kept, ...notes, ...notKept, ...missingFiles(outcome)];
  } catch (problem) {
    return [`not kept: ${messageOf(problem)}`];
  }
}
