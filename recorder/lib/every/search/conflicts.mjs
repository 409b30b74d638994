// Conflicts: accesses of different agents that are open in one state, touch a byte, and aren't both atomic on the same
// bytes. What two agents may have is found once for each pair of nodes with their recent accesses.

import { rawAt } from "./raw-elements.mjs";
import { DOES, isCall, isEnd } from "./nodes.mjs";

/** @typedef {import("./nodes.mjs").Node} Node */

/**
 * @typedef {object} Open an open access
 * @property {Node} node
 * @property {boolean} writes
 * @property {boolean} isAtomic
 */

/** @typedef {[Open, Open]} Pair */

/** @typedef {{ one: Node, other: Node, agents: [number, number] }} Conflict in a state, of two agents */

// More than there are nodes, and lists of them.
const MANY = 2 ** 26;

/** @type {Conflict[]} most states have none */
const NONE = [];

export class Conflicts {
  /** @param {import("./world.mjs").World} world */
  constructor(world) {
    this.world = world;
    /** @type {Map<number, number>} numbers of what an agent may have open, by node and recent accesses */
    this.numbers = new Map();
    /** @type {number[]} those of the agents of the world's state */
    this.ofAgents = [];
    /** @type {Open[][]} by these numbers */
    this.opens = [];
    /** @type {Map<number, Pair[]>} by two of these numbers */
    this.pairs = new Map();
  }

  /** @returns {readonly Conflict[]} those of the world's state */
  here() {
    const { ofAgents, world } = this;
    let found = NONE;
    for (let agent = 0; agent < world.count; agent += 1) ofAgents[agent] = this.#numberOf(agent);
    for (let one = 1; one < world.count; one += 1) {
      for (let other = 0; other < one; other += 1) {
        const pairs = this.#pairsOf(ofAgents[one], ofAgents[other]);
        for (let at = 0; at < pairs.length; at += 1) {
          const { 0: first, 1: second } = pairs[at];
          if (!this.#writes(first) && !this.#writes(second)) continue;
          if (found.length === 0) found = [];
          found.push({ one: first.node, other: second.node, agents: [one, other] });
        }
      }
    }
    return found;
  }

  /** @param {Open} open @returns {boolean} whether it writes in this state */
  #writes({ node, writes }) {
    if (node.does !== DOES.COMPARE_EXCHANGE) return writes;
    return rawAt(this.world.bytes, node.at, node.size) === node.raw[0];
  }

  /** @param {number} agent */
  #numberOf(agent) {
    const { world } = this;
    const isOut = world.waits(agent) || world.wasWoken(agent) || this.#cantBlock(agent);
    const key = 2 * (world.nodes[agent].id * MANY + world.recent[agent]) + (isOut ? 1 : 0);
    let number = this.numbers.get(key);
    if (number === undefined) {
      number = this.opens.length;
      this.numbers.set(key, number);
      this.opens.push(this.#opened(agent, isOut));
    }
    return number;
  }

  /** @param {number} agent @returns {boolean} whether it stands at a wait that throws */
  #cantBlock(agent) {
    const { nodes, program: { agents } } = this.world;
    return nodes[agent].does === DOES.WAIT && !agents[agent].canBlock;
  }

  /** @param {number} agent @param {boolean} isOut whether what it does next touches nothing */
  #opened(agent, isOut) {
    const { world } = this;
    const recent = world.lists.members(world.recent[agent]).map((id) => world.program.nodes[id]);
    const node = world.nodes[agent];
    return (isOut || isEnd(node) ? recent : [...recent, node]).flatMap(openOf);
  }

  /** @param {number} one @param {number} other */
  #pairsOf(one, other) {
    const key = one * MANY + other;
    let found = this.pairs.get(key);
    if (found === undefined) {
      found = [];
      const ones = this.opens[one];
      const others = this.opens[other];
      for (let at = 0; at < ones.length; at += 1) {
        for (let by = 0; by < others.length; by += 1) {
          if (mayConflict(ones[at], others[by])) found.push([ones[at], others[by]]);
        }
      }
      this.pairs.set(key, found);
    }
    return found;
  }
}

/** @param {Node} node @returns {Open[]} what it touches, if anything */
function openOf(node) {
  const { does, error, size, written } = node;
  if (!isCall(node)) return size === 0 ? [] : [{ node, writes: written !== undefined, isAtomic: false }];
  if (does === DOES.NOTIFY || error !== undefined) return [];
  return [{ node, writes: does !== DOES.LOAD && does !== DOES.WAIT, isAtomic: true }];
}

/** @param {Open} one @param {Open} other @returns {boolean} whether they conflict if those write that may */
function mayConflict(one, other) {
  const { at, block, size } = one.node;
  const { at: from, block: place, size: length } = other.node;
  if (block !== place || at >= from + length || from >= at + size || !(one.writes || other.writes)) return false;
  return !(one.isAtomic && other.isAtomic && at === from && size === length);
}
