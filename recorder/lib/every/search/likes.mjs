// Like agents: they have the same automaton, and both can block or neither can. Of states that differ only by an
// exchange of like agents, the one with sorted agents is kept (tests/search/FORMAT.md has the order).

/** @typedef {import("./world.mjs").World} World */

/** @param {import("./world.mjs").Program} program @returns {number[]} of each agent the first one that is like it */
export const likesOf = ({ agents }) => agents.map(({ canBlock, root }) =>
  agents.findIndex((other) => other.root === root && other.canBlock === canBlock));

/**
 * Sorts the like agents of a world's state.
 * @param {World} world
 * @param {number[]} names something of each agent, which is moved with it
 */
export function sortAgents(world, names) {
  const { count, hasLikes, likes, lists } = world;
  if (!hasLikes) return;
  const line = lists.members(world.line).slice();
  let isSorted = true;
  for (let at = 0; at < count; at += 1) {
    for (let other = at + 1; other < count; other += 1) {
      if (likes[other] !== likes[at] || !comesBefore(world, line, other, at)) continue;
      exchange(world, line, at, other);
      swap(names, at, other);
      isSorted = false;
    }
  }
  if (!isSorted) world.line = line.reduce((list, agent) => lists.with(list, agent), 0);
}

/**
 * @param {World} world
 * @param {number[]} line the agents that wait
 * @param {number} one
 * @param {number} other
 * @returns {boolean} whether one like agent comes before the other
 */
function comesBefore(world, line, one, other) {
  const { lists, nodes, recent } = world;
  if (nodes[one] !== nodes[other]) return nodes[one].id < nodes[other].id;
  const wasWoken = world.wasWoken(one);
  if (wasWoken !== world.wasWoken(other)) return !wasWoken;
  const place = line.indexOf(one);
  const against = line.indexOf(other);
  if (place !== against) return place >= 0 && (against < 0 || place < against);
  return recent[one] !== recent[other] && isBefore(lists.members(recent[one]), lists.members(recent[other]));
}

/** @param {readonly number[]} one @param {readonly number[]} other @returns {boolean} by the first that differs */
function isBefore(one, other) {
  for (let at = 0; at < one.length && at < other.length; at += 1) {
    if (one[at] !== other[at]) return one[at] < other[at];
  }
  return one.length < other.length;
}

/**
 * Where agents are learned, a pattern of a list takes time.
 * @param {unknown[]} list
 * @param {number} one
 * @param {number} other
 */
function swap(list, one, other) {
  const before = list[one];
  list[one] = list[other];
  list[other] = before;
}

/** @param {World} world @param {number[]} line @param {number} one @param {number} other */
function exchange(world, line, one, other) {
  const { nodes, recent } = world;
  swap(nodes, one, other);
  swap(recent, one, other);
  world.operations?.exchange(one, other);
  if (world.wasWoken(one) !== world.wasWoken(other)) world.woken ^= (1 << one) | (1 << other);
  const place = line.indexOf(one);
  const against = line.indexOf(other);
  if (place >= 0) line[place] = other;
  if (against >= 0) line[against] = one;
}
