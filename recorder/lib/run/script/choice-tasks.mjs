// The choices of a run's agents, as its outcome has them: what was asked and returned; and where they stand among the
// events of its trace.

import { chosenText } from "../../../script/choices.mjs";

/** @typedef {import("../../memory/choice-list.mjs").ChoiceMade} ChoiceMade */

/** @param {ChoiceMade[][]} made by each agent @returns {import("../../../script/choices.mjs").AgentChoice[][]} */
export const choicesOf = (made) => made.map((each) => each.map(({ choice }) => choice));

/**
 * @param {ChoiceMade[][]} made by each agent
 * @param {import("../../memory/sources.mjs").Sources[]} sources of each agent
 * @returns {import("../../memory/task-notes.mjs").TaskNote[]} in their order
 */
export function chosenTasks(made, sources) {
  const tasks = made.flatMap((choices, agent) => {
    const places = choices.length === 0 ? [] : sources[agent].list();
    return choices.map(({ choice, event, source }) =>
      ({ event, agent, text: chosenText(choice), place: places[source] ?? "" }));
  });
  return tasks.sort((one, other) => one.event - other.event);
}
