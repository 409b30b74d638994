// `everySchedule` of the library: every schedule of a module of agents.

import { needFittingAll } from "../options/of-all.mjs";
import { Refused } from "../options/refused.mjs";
import { OPTIONS, SEEDS_OF_ALL, assumed } from "../options/table.mjs";
import { chosenProgram } from "../simulator/chosen.mjs";
import { folderOfCaller } from "./caller.cjs";
import { jobHere } from "./explore.mjs";
import { exploreOptions } from "./library-options.mjs";

/** @typedef {import("../every/data.mjs").EveryData} EveryData */

/** @typedef {import("../../every-schedule.cjs").EveryOptions} EveryOptions */

/** @param {string} name */
const spelled = (name) => `\`${name}\``;

/**
 * The options of a search of every schedule, as it takes them.
 * @param {EveryOptions} options
 * @param {() => string | undefined} callersFolder from which a relative path is taken, if it is known
 * @returns {import("../every/every.mjs").EveryRunOptions & { jobs: number, signal?: AbortSignal }}
 */
export function everyOptions(options, callersFolder) {
  const { within = assumed("within"), states = assumed("states"), ...rest } = options ?? {};
  OPTIONS.within.kind.value(within, spelled("within"));
  OPTIONS.states.kind.value(states, spelled("states"));
  needFittingAll(rest, spelled, true);
  for (const name of /** @type {const} */ (["init", "check"])) {
    if (rest[/** @type {"module"} */ (/** @type {string} */ (name))] === undefined) continue;
    const instead = "export it from their module";
    throw new Refused(`\`${name}\` can't be given: the agents are learned in another thread; ${instead}`);
  }
  const { seeds, sabsim, ...checked } = exploreOptions({ seeds: SEEDS_OF_ALL, ...rest }, callersFolder);
  const checking = sabsim !== false && checked.checkEvery > 0 ? { sabsim: chosenProgram(sabsim) } : { checkEvery: 0 };
  return { ...checked, ...seeds, ...checking, within, states, covers: rest.seeds === undefined };
}

/**
 * Tries every schedule of the agents of a module. A relative path of the module is taken from the file whose code calls
 * this function.
 * @param {EveryOptions} options
 * @returns {Promise<EveryData>} fails with Refused for options or a module that can't be, and with NotAsLearned if the
 * agents do something else than was learned of them
 */
export async function everySchedule(options) {
  const { signal, ...taken } = everyOptions(options, () => folderOfCaller(everySchedule));
  // A program that makes runs alone doesn't load it.
  const [{ dataOf }, { EveryUse }] = await Promise.all([import("../every/data.mjs"), import("../every/every-use.mjs")]);
  return dataOf(await new EveryUse(taken, { signal, job: jobHere(taken) }).run());
}
