// Agents that look at their numbers have an automaton each. Often two of these are isomorphic: at each node they make
// the same call at the same line, and the edges lead on alike. That is assumed of all agents that can block, and of all
// that can't. Then such agents go by one automaton, so they are like agents. Each edge is learned of all of them. If an
// edge is different, the agents are kept apart, and the search begins again.

import { isSame } from "./asked-nodes.mjs";

/** @typedef {import("../search/nodes.mjs").Node} Node */
/** @typedef {import("../search/nodes.mjs").Answer} Answer */
/** @typedef {import("./learner.mjs").Learner} Learner */

/** The automata of two agents aren't isomorphic. */
export class AreUnlike extends Error {
  /** @param {number} one @param {number} other the agents */
  constructor(one, other) {
    super(`agents ${one} and ${other} aren't alike`);
    this.agents = [one, other];
  }
}

/** Which agents are known not to be alike, from search to search. */
export class UnlikeAgents {
  /** @param {boolean[]} canBlock of each agent */
  constructor(canBlock) {
    this.canBlock = canBlock;
    /** @type {Set<string>} */
    this.pairs = new Set();
  }

  /** @param {AreUnlike} why */
  add({ agents }) {
    this.pairs.add(`${agents}`);
  }

  /** @returns {number[]} of each agent the first one by whose automaton it goes */
  leaders() {
    /** @type {number[]} */
    const leaders = [];
    this.canBlock.forEach((canBlock, agent) => {
      const leader = leaders.find((one, at) =>
        one === at && this.canBlock[one] === canBlock && !this.pairs.has(`${[one, agent]}`));
      leaders.push(leader ?? agent);
    });
    return leaders;
  }
}

/** An agent that goes by the automaton of another one. */
class Follower {
  /** @param {number} agent @param {number} leader */
  constructor(agent, leader) {
    this.agent = agent;
    this.leader = leader;
    /** @type {Map<Node, Node>} its own node for each node of its leader */
    this.own = new Map();
  }
}

export class JoinedAutomata {
  /** @param {Learner} learner @param {number[]} leaders */
  constructor(learner, leaders) {
    this.learner = learner;
    this.leaders = leaders;
    /** @type {Follower[][]} of each agent those that go by its automaton */
    this.followers = leaders.map((_, leader) =>
      leaders.flatMap((of, agent) => (of === leader && agent !== leader ? [new Follower(agent, leader)] : [])));
  }

  /**
   * @param {Uint8Array} bytes that the agents find at their beginnings
   * @returns {Node[]} of each agent the first node of the automaton by which it goes
   * @throws {AreUnlike}
   */
  roots(bytes) {
    const roots = this.leaders.map((_, agent) => this.learner.root(agent, bytes));
    for (const [leader, followers] of this.followers.entries()) {
      for (const follower of followers) this.#join(follower, roots[leader], roots[follower.agent], bytes);
    }
    return this.leaders.map((leader) => roots[leader]);
  }

  /**
   * Learns an edge, of all agents that go by its automaton.
   * @param {Node} node
   * @param {Answer} answer
   * @param {Uint8Array} bytes
   * @returns {Node} to which it leads
   * @throws {AreUnlike}
   */
  learn(node, answer, bytes) {
    const next = this.learner.learn(node, answer, bytes);
    const followers = this.followers[node.automaton];
    for (let at = 0; at < followers.length; at += 1) {
      const own = /** @type {Node} */ (followers[at].own.get(node));
      this.#join(followers[at], next, this.#next(own, answer, bytes), bytes);
    }
    return next;
  }

  /** @param {Node} node of a leader @param {(node: Node) => string} lineOf @throws {AreUnlike} if lines differ */
  needLine(node, lineOf) {
    for (const { agent, leader, own } of this.followers[node.automaton]) {
      const mate = own.get(node);
      if (mate !== undefined && lineOf(mate) !== lineOf(node)) throw new AreUnlike(leader, agent);
    }
  }

  /** @param {Node} node @param {Answer} answer @param {Uint8Array} bytes @returns {Node} to which its edge leads */
  #next(node, answer, bytes) {
    return node.edges.get(answer) ?? this.learner.learn(node, answer, bytes);
  }

  /**
   * Notes that two nodes do the same, with all that follows as far as it is known of the first one.
   * @param {Follower} follower
   * @param {Node} node of its leader
   * @param {Node} mate its own
   * @param {Uint8Array} bytes
   */
  #join(follower, node, mate, bytes) {
    /** @type {[Node, Node][]} */
    const left = [[node, mate]];
    for (let pair = left.pop(); pair !== undefined; pair = left.pop()) {
      const one = pair[0];
      const other = pair[1];
      const known = follower.own.get(one);
      const isLike = known === undefined ? this.#isLike(one, other) : known === other;
      if (!isLike) throw new AreUnlike(follower.leader, follower.agent);
      if (known !== undefined) continue;
      follower.own.set(one, other);
      one.edges.forEach((next, answer) => void left.push([next, this.#next(other, answer, bytes)]));
    }
  }

  /** @param {Node} one @param {Node} other @returns {boolean} whether they do the same at the same place in the code */
  #isLike(one, other) {
    const { places } = this.learner;
    return one.isAlone === other.isAlone && places[one.id] === places[other.id] && isSame(one, other);
  }
}
