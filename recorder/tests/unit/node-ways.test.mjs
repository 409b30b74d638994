// The ways to nodes, behind which the second learning tries what follows.

import assert from "node:assert/strict";
import { test } from "node:test";
import { MOST_WAYS, NodeWays } from "../../lib/every/learning/node-ways.mjs";

/** @param {[number, number][]} pairs of nodes @returns {any[]} their edges, behind the beginning at node 0 */
const edgesOf = (pairs) => [
  { automaton: 0, from: undefined, to: 0 },
  ...pairs.map(([node, to], answer) => ({ automaton: 0, from: { node, answer }, to })),
];

/** From node 0 so many edges lead to nodes of their own, and from each of these to one node, which has two edges. */
function fan(width) {
  const own = Array.from({ length: width }, (_, at) => at + 1);
  const [meets, one, other] = [width + 1, width + 2, width + 3];
  return { meets, edges: edgesOf([
    ...own.map((node) => /** @type {[number, number]} */ ([0, node])),
    ...own.map((node) => /** @type {[number, number]} */ ([node, meets])), [meets, one], [meets, other],
  ]) };
}

/** @param {any[]} edges @returns {number[][]} */
function historiesOf(edges) {
  /** @type {number[][]} */
  const found = [];
  const none = new NodeWays(edges).find((history) => void found.push([...history]));
  assert.equal(none, undefined);
  return found;
}

/** @param {any[]} edges @param {number[][]} histories */
function needWhole(edges, histories) {
  for (const [first, ...rest] of histories) {
    assert.equal(edges[first].from, undefined);
    let at = edges[first].to;
    for (const number of rest) {
      assert.equal(edges[number].from.node, at);
      at = edges[number].to;
    }
  }
  assert.deepEqual([...new Set(histories.flat())].sort((one, other) => one - other), [...edges.keys()]);
}

/** @param {any[]} edges @param {number[][]} histories @param {number} node @returns {string[]} by which edges, then */
const pairsAt = (edges, histories, node) => [...new Set(histories.flatMap((history) => history.flatMap((number, at) =>
  (edges[number].to === node && at + 1 < history.length ? [`${number} ${history[at + 1]}`] : []))))];

test("a node is tried by each of its ways, with each of its edges", () => {
  const { edges, meets } = fan(MOST_WAYS);
  const histories = historiesOf(edges);
  needWhole(edges, histories);
  assert.equal(pairsAt(edges, histories, meets).length, 2 * MOST_WAYS);
  assert.deepEqual(new NodeWays(edges).counts(), { all: 16, tried: 16, edgesByOne: 32 });
});

test("of a node with more ways, sixteen are drawn, the same ones each time, and the shortest is one more", () => {
  const { edges, meets } = fan(60);
  const pairs = pairsAt(edges, historiesOf(edges), meets);
  assert.deepEqual(pairsAt(edges, historiesOf(edges), meets), pairs);
  const { all, tried } = new NodeWays(edges).counts();
  assert.equal(all, 60);
  assert.ok(tried === MOST_WAYS || tried === MOST_WAYS + 1, `${tried}`);
  assert.equal(pairs.length, 2 * tried);
  needWhole(edges, historiesOf(edges));
});

test("what follows a node with several ways is tried behind each of them, and beyond the next such node", () => {
  // Two ways lead to node 3. Behind it a line of nodes leads to node 6, where a loop begins, and on to an end.
  const edges = edgesOf([[0, 1], [0, 2], [1, 3], [2, 3], [3, 4], [4, 5], [5, 6], [6, 6], [6, 7]]);
  const histories = historiesOf(edges);
  needWhole(edges, histories);
  for (const by of [3, 4]) {
    const behind = histories.filter((history) => history.includes(by)).map((history) => history.at(-1));
    assert.ok(behind.includes(9), `${by}`);
  }
});

test("an agent that ends at once has a history, and a way that is found ends the search", () => {
  assert.deepEqual(historiesOf(edgesOf([])), [[0]]);
  assert.equal(new NodeWays(fan(3).edges).find(() => "found"), "found");
});
