// What agents choose behind a schedule that ends at choices: in a real run no agent stops there.

import { DOES, isChoice } from "../search/nodes.mjs";

/** @typedef {import("../search/world.mjs").World} World */
/** @typedef {import("../search/nodes.mjs").Node} Node */

/**
 * Lets an agent choose until it is at no choice: so that it doesn't throw, if it can.
 * @param {World} world in which it acts
 * @param {number} agent
 * @param {Set<Node>} passed choices at which it was
 * @returns {[Node, number][]} the choices, each with its number; none, if each way throws or chooses for ever
 */
export function lastChoices(world, agent, passed = new Set()) {
  const node = world.nodes[agent];
  if (!isChoice(node) || passed.has(node)) return [];
  passed.add(node);
  const before = { bytes: world.bytes.slice(), node, recent: world.recent[agent] };
  for (let number = 0; number < world.acts(agent); number += 1) {
    const goesOn = world.act(agent, number);
    const more = goesOn ? lastChoices(world, agent, passed) : [];
    const { does } = world.nodes[agent];
    if (goesOn && does !== DOES.THREW && does !== DOES.CHOOSE) return [[node, number], ...more];
    restore(world, agent, before);
  }
  return [];
}

/** @param {World} world @param {number} agent @param {{ bytes: Uint8Array, node: Node, recent: number }} before */
function restore(world, agent, { bytes, node, recent }) {
  world.bytes.set(bytes);
  world.hasWritten = true;
  world.nodes[agent] = node;
  world.recent[agent] = recent;
}
