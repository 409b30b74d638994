// Which options go with trying every schedule.

import { needOthers } from "./of-programs.mjs";
import { Refused } from "./refused.mjs";
import { optionsOf } from "./table.mjs";

/**
 * Refuses options that don't go with trying every schedule, or that need it.
 * @param {Record<string, any>} given what was given, by the options' names
 * @param {(name: string) => string} spelled an option as its user writes it
 * @param {boolean} [isAll] whether every schedule is to be tried
 * @throws {Refused}
 */
export function needFittingAll(given, spelled, isAll = given.all === true) {
  if (isAll) {
    needOthers("all", given, spelled);
    return;
  }
  const other = optionsOf("every").find(([name]) => given[name] !== undefined)?.[0];
  if (other !== undefined) throw new Refused(`${spelled(other)} needs ${spelled("all")}: it bounds that search`);
}
