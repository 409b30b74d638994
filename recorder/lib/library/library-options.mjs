// The options of the library: each is looked at before anything is started, and one that isn't known is refused.

import { meant } from "../options/nearest.mjs";
import { needFitting } from "../options/of-programs.mjs";
import { Refused } from "../options/refused.mjs";
import { runKindOf } from "../options/run-kinds.mjs";
import { defaultsOf, optionsOf } from "../options/table.mjs";
import { moduleUrlOf } from "./module-url.mjs";

/** @typedef {import("../../recorder.cjs").WithBuffers} WithBuffers */
/** @typedef {import("../../options.cjs").RecordOptions} RecordOptions */
/** @typedef {import("../../options.cjs").ExploreOptions} ExploreOptions */
/** @typedef {import("../../testing.cjs").OfTrial} OfTrial */
/** @typedef {import("../../testing.cjs").TrialOptions} TrialOptions */
/** @typedef {import("../../testing.cjs").ProgramTrialOptions} ProgramTrialOptions */

/** What there is in place of options that earlier versions had. */
const INSTEAD = new Map([["switch", 'use `strategy: "switch:P"`'], ["bounds", "use `limits`"]]);

/**
 * @param {unknown} options
 * @param {import("../options/table.mjs").Taker} taker
 * @param {() => string | undefined} callersFolder from which a relative path is taken, if it is known
 * @returns {any} what is taken of each
 */
function checkedBy(options, taker, callersFolder) {
  if (typeof options !== "object" || options === null) throw new Refused("the options must be an object");
  const rows = new Map(optionsOf(taker));
  const checked = defaultsOf(taker);
  for (const [name, value] of Object.entries(options)) {
    const kind = rows.get(name)?.kind;
    if (kind === undefined) {
      const instead = INSTEAD.get(name) ?? meant(name, [...rows.keys()]);
      throw new Refused(`there is no option \`${name}\`: ${instead}`);
    }
    if (value !== undefined) checked[name] = kind.value(value, `\`${name}\``);
  }
  needFitting({ ...options, ...whatRuns(checked) }, (name) => `\`${name}\``);
  const kind = runKindOf(checked);
  const url = moduleUrlOf(kind.option, checked[kind.option], callersFolder);
  return { ...checked, kind, [kind.option]: url, module: url };
}

/**
 * What is run: a module of agents or a program.
 * @param {{ module?: string | URL, program?: string | URL }} checked
 * @throws {Refused} unless just one of them is given
 */
function whatRuns({ module, program }) {
  if (module !== undefined && program !== undefined) {
    throw new Refused("`module` and `program` can't both be given: `module` is one of agents, and `program` starts its "
      + "threads itself");
  }
  if (module === undefined && program === undefined) {
    throw new Refused("`module` is missing, or `program` in its place: it must be a path or a URL");
  }
  return { module, program };
}

/** @typedef {import("../run/group.mjs").GroupOptions & { sabsim?: string | boolean }} OfAll what all runs have */

/**
 * @typedef {object} OfMany what many runs have besides
 * @property {import("../seeds/ranges.mjs").SeedRange} seeds
 * @property {number} jobs
 * @property {number} checkEvery
 * @property {boolean} failFast
 * @property {AbortSignal} [signal]
 */

/**
 * The options of one run.
 * @param {unknown} options
 * @param {() => string | undefined} callersFolder
 * @returns {Omit<OfAll, "fresh"> & { seed: number, shorten?: boolean }}
 */
export const checkedOptions = (options, callersFolder) => checkedBy(options, "record", callersFolder);

/**
 * The options of many runs.
 * @param {unknown} options
 * @param {() => string | undefined} callersFolder
 * @returns {OfAll & OfMany}
 */
export function exploreOptions(options, callersFolder) {
  const checked = { jobs: 1, ...checkedBy(options, "explore", callersFolder) };
  for (const name of /** @type {const} */ (["init", "check"])) {
    if (checked[name] === undefined || checked.jobs === 1) continue;
    const why = `it is a function of this process, and ${checked.jobs} jobs have processes of their own`;
    throw new Refused(`\`${name}\` can't be given: ${why}; leave \`jobs\` out, or export it from the agents' module`);
  }
  return checked;
}

/**
 * The options of a trial. Only those that are its own were looked at.
 * @template {OfTrial} Options
 * @param {Options} options
 * @returns {Options}
 */
export function checkedOwn(options) {
  for (const [name, { kind, of }] of optionsOf("trial")) {
    const value = /** @type {any} */ (options)?.[name];
    // How far a search goes is looked at when it begins.
    if (!of.includes("every") && value !== undefined) kind.value(value, `\`${name}\``);
  }
  return options ?? /** @type {any} */ ({});
}
