// Which options go with a whole program, and which with a module of agents.

import { Refused } from "./refused.mjs";
import { runKindOf } from "./run-kinds.mjs";
import { OPTIONS } from "./table.mjs";

/**
 * Refuses values that don't go with something.
 * @param {"agents" | "program" | "all"} of a module of agents, a whole program, or the search of every schedule
 * @param {Record<string, any>} given what was given, by the options' names
 * @param {(name: string) => string} spelled an option as its user writes it
 * @throws {Refused}
 */
export function needOthers(of, given, spelled) {
  for (const [name, { not = [] }] of Object.entries(OPTIONS)) {
    const exclusion = not.find((each) => each.of === of);
    const value = given[name];
    if (exclusion === undefined || value === undefined) continue;
    const { why, values } = exclusion;
    if (!(values?.includes(value) ?? value !== false)) continue;
    const what = values === undefined ? spelled(name) : `${spelled(name)} ${value}`;
    throw new Refused(`${what} doesn't go with ${spelled(of)}: ${why}`);
  }
}

/**
 * Refuses options that don't go with what is run.
 * @param {Record<string, any>} given what was given, by the options' names
 * @param {(name: string) => string} spelled an option as its user writes it
 * @throws {Refused}
 */
export function needFitting(given, spelled) {
  const { name: own, fits } = runKindOf(given);
  for (const [name, { only }] of Object.entries(OPTIONS)) {
    if (given[name] === undefined || only?.why === undefined || only.of === own) continue;
    throw new Refused(`${spelled(name)} ${fits} ${spelled("program")}: ${only.why}`);
  }
  needOthers(own, given, spelled);
}
