// What the simulator makes of a kept script for people to look at: the explained report, the picture, and the page of
// the run.

import { join } from "node:path";
import { hasFloats } from "../../script/written.mjs";
import { aboutOf } from "./about-run.mjs";
import { withChoices } from "./explained-choices.mjs";
import { PROGRAM_ENDING } from "./run-store.mjs";
import { pageOfRun } from "./kept-page.mjs";
import { wordsText } from "./program-words.mjs";

/** @typedef {import("../run/outcome.mjs").Outcome} Outcome */
/** @typedef {import("../simulator/chosen.mjs").ChosenSimulator} ChosenSimulator */

/**
 * @typedef {object} Picture
 * @property {string} ending of its file's name
 * @property {"explained" | "svg" | "json"} format of the replay that it is made from
 * @property {(output: string, outcome: Outcome, module: string, about: AboutRun, facts: () => string) => string} made
 * of the output of that replay, and of its output as lines of JSON if that is asked for
 * @property {boolean} [hasThreads] whether it is made only of runs whose threads have names
 */

/**
 * @typedef {object} RunOrigin a run was made
 * @property {string} module the URL of the agents' module
 * @property {string} options of the command line that don't have their defaults; empty: none
 * @property {Omit<import("../../page/run-data.mjs").Command, "script">} [command] that makes the run again, by its
 * script or by its row; undefined: none does
 */

/** @typedef {ReturnType<typeof aboutOf>} AboutRun how a run was made, as its page says it */

/** Why something isn't made of a script, in its message. */
class NotMade extends Error {}

/** @type {readonly Picture[]} */
const PICTURES = Object.freeze([
  { ending: "explained", format: "explained", made: explainedMade },
  { ending: "svg", format: "svg", made: (output) => output },
  { ending: "words", format: "json", hasThreads: true, made: wordsText },
  { ending: "html", format: "json", made: pageMade },
]);

/** @type {Picture["made"]} */
function explainedMade(output, outcome, module, _about, facts) {
  return outcome.choices === undefined ? output : withChoices(output, facts(), outcome, module);
}

/** @param {string} facts @param {Outcome} outcome @param {string} module @param {AboutRun} about */
function pageMade(facts, outcome, module, about) {
  try {
    return pageOfRun(outcome, facts, module, about);
  } catch (problem) {
    if (problem instanceof SyntaxError) throw new NotMade("what sabsim prints about the run is no JSON");
    throw problem;
  }
}

/**
 * Makes something of the script of a run.
 * @param {ChosenSimulator} simulator
 * @param {Picture} picture what
 * @param {Outcome} outcome that has a script
 * @param {string} module the URL of the agents' module
 * @param {AboutRun} about
 * @returns {string}
 * @throws {NotMade}
 */
function pictureOf(simulator, { format, made }, outcome, module, about) {
  const replayedAs = (/** @type {Picture["format"]} */ as) => replayed(simulator, as, outcome.script ?? "");
  return made(replayedAs(format), outcome, module, about, () => replayedAs("json"));
}

/**
 * @param {ChosenSimulator} simulator
 * @param {Picture["format"]} format
 * @param {string} script
 * @returns {string} what a replay prints
 * @throws {NotMade}
 */
function replayed(simulator, format, script) {
  const { status, output, complaint } = run(simulator, format, script);
  if (status !== 0) throw new NotMade(`sabsim ended with status ${status}: ${complaint.trim()}`);
  return output;
}

/** @param {ChosenSimulator} simulator @param {Picture["format"]} format @param {string} script */
function run(simulator, format, script) {
  try {
    return simulator.run({ job: "replay", format }, script);
  } catch (problem) {
    throw new NotMade(problem instanceof Error ? problem.message : String(problem));
  }
}

/**
 * Keeps all of them beside the script.
 * @param {import("./run-store.mjs").RunStore} keeper
 * @param {Outcome} outcome of the run that is kept
 * @param {RunOrigin & { simulator: ChosenSimulator }} how the run was made, and the simulator
 * @returns {string[]} what isn't kept though there is a script to make it from, and why
 */
export function keepPictures(keeper, outcome, { simulator, ...how }) {
  const { seed, script } = outcome;
  if (script === undefined) return [];
  const again = how.command?.isOfRow ? PROGRAM_ENDING : "json";
  const about = aboutOf(how, join(keeper.folder, keeper.nameOf(seed, again)), simulator.version);
  const pictures = PICTURES.filter(({ hasThreads = false }) => !hasThreads || outcome.threads !== undefined);
  return pictures.flatMap((picture) => {
    const { ending } = picture;
    try {
      keeper.keepAll(seed, { [ending]: pictureOf(simulator, picture, outcome, how.module, about) });
      return [];
    } catch (problem) {
      if (problem instanceof NotMade) return [`not kept: ${keeper.nameOf(seed, ending)}: ${problem.message}`];
      throw problem;
    }
  });
}

/**
 * What a reader of the kept files must know.
 * @param {import("./run-store.mjs").RunStore} keeper
 * @param {Outcome} outcome of the run that is kept
 * @returns {string[]} a sentence each
 */
export function notesOn(keeper, { seed, script }) {
  const all = ["explained", "svg"].map((ending) => keeper.nameOf(seed, ending));
  const files = all.filter((name) => keeper.names.includes(name));
  if (script === undefined || files.length === 0 || !hasFloats(script)) return [];
  return [`in ${files.join(" and ")} a float that was written without Atomics is the whole number with the same bits`];
}
