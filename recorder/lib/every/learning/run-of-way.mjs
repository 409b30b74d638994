// What a real run by a way through the states of a search is to do.

import { choiceOf } from "../../../script/choices.mjs";
import { actorOf, chosenIn } from "../search/chosen-acts.mjs";
import { DOES, isChoice } from "../search/nodes.mjs";
import { lastChoices } from "./last-choices.mjs";

/** @typedef {import("../search/nodes.mjs").Node} Node */
/** @typedef {import("../../../script/choices.mjs").AgentChoice} AgentChoice */

/**
 * @typedef {object} RunOfWay
 * @property {number[]} row the agents in the order in which they move, as a run goes by it
 * @property {number[]} calls of each agent how many it makes on the way
 * @property {AgentChoice[][]} choices of each agent what it chooses, also behind the row if it is at a choice there
 * @property {number} [lastChooser] an agent that stands at a choice then, of which each number throws, or leads on to
 * choices for ever
 * @property {boolean} spins whether an agent stands in a loop of reads on the way, where no real run changes agents
 */

/**
 * @param {import("../search/world.mjs").World} world in which the way is gone
 * @param {number[]} way the acts in their order, as a run has the agents
 * @returns {RunOfWay}
 */
export function runOfWay(world, way) {
  world.restart();
  const stands = () => world.nodes.some(({ isAlone }) => isAlone);
  let spins = stands();
  const calls = world.nodes.map(() => 0);
  const choices = world.nodes.map(() => /** @type {AgentChoice[]} */ ([]));
  /** @param {Node} node @param {number} chosen @returns {AgentChoice} */
  const choiceAt = ({ limit }, chosen) => choiceOf(/** @type {number} */ (limit), chosen);
  const row = way.filter((act) => {
    const agent = actorOf(act);
    const node = world.nodes[agent];
    const isOfCall = node.does < DOES.READ;
    // An agent that waits has made its call before.
    if (isOfCall && !world.waits(agent)) calls[agent] += 1;
    if (isChoice(node)) choices[agent].push(choiceAt(node, chosenIn(act)));
    world.step(agent, chosenIn(act));
    spins ||= stands();
    return isOfCall;
  }).map(actorOf);
  choices.forEach((made, agent) =>
    made.push(...lastChoices(world, agent).map(([node, chosen]) => choiceAt(node, chosen))));
  const left = world.nodes.findIndex(isChoice);
  return { row, calls, choices, lastChooser: left < 0 ? undefined : left, spins };
}
