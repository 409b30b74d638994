// Ways through the states of a search that together go over the edges of its automata: each leads to a state from which
// no act leads on, if it can.

import { actorOf, chosenIn } from "./chosen-acts.mjs";
import { isWithinAct } from "./nodes.mjs";

/** @typedef {import("./search.mjs").Search} Search */
/** @typedef {import("./nodes.mjs").Node} Node */

/**
 * @typedef {object} CoveringWay
 * @property {number[]} way its acts, as `Search.named` takes them
 * @property {boolean} isWhole whether no act leads on from its end
 * @property {number} edges how many edges it goes over that those before it don't
 */

/** So many ways at most, and acts of each. */
const MOST_WAYS = 280;
const MOST_ACTS = 1_000;

/** So many states are looked at for edges that are still left. */
const MOST_STATES = 20_000;

/**
 * @param {Node} node
 * @param {unknown} answer
 * @param {Node} next
 * @returns {string} the edge: of an access within an act by the node at its end, which is all that is known of it
 */
const edgeOf = (node, answer, next) => (isWithinAct(node) ? `${node.id} to ${next.id}` : `${node.id} ${answer}`);

class Covering {
  /** @param {Search} search that is closed @param {Node[]} nodes whose edges are to be gone over */
  constructor(search, nodes) {
    this.search = search;
    /** @type {Set<string>} the edges that no way has gone over */
    this.left = new Set(nodes.flatMap((node) => [...node.edges].map(([answer, next]) => edgeOf(node, answer, next))));
    search.world.restart();
    for (const agent of search.names.keys()) this.#leaveOut(this.#segmentOf(agent));
  }

  /**
   * @param {Iterable<number>} states in which edges are gone over first, as far as that is known
   * @returns {CoveringWay[]}
   */
  ways(states) {
    /** @type {CoveringWay[]} */
    const ways = [];
    // Those that were found last are the farthest, and others are on the way to them.
    for (const state of [...states].sort((one, other) => other - one)) this.#addFrom(state, ways);
    const most = Math.min(this.search.count, MOST_STATES);
    const goesOn = () => this.left.size > 0 && ways.length < MOST_WAYS;
    for (let state = 0; state < most && goesOn(); state += 1) this.#addFrom(state, ways);
    return ways;
  }

  /** @param {number} state @param {CoveringWay[]} ways get those over its acts that go over edges that are left */
  #addFrom(state, ways) {
    for (let at = this.#firstAct(state); at >= 0 && ways.length < MOST_WAYS; at = this.#firstAct(state)) {
      ways.push(this.#wayOver(state, at));
    }
  }

  /** @param {number} state @returns {number} the place of an act from it that goes over an edge that is left, or -1 */
  #firstAct(state) {
    const { starts: { items } } = this.search;
    for (let at = items[state]; at < items[state + 1]; at += 1) if (this.#many(state, at) > 0) return at;
    return -1;
  }

  /**
   * @param {number} state
   * @param {number} at the place of an act from it
   * @returns {CoveringWay} that leads there, makes the act and goes on
   */
  #wayOver(state, at) {
    const { by, parents, taken, targets } = this.search;
    const before = this.left.size;
    /** @type {number[]} */
    const passed = [];
    for (let each = state; each >= 0; each = parents.items[each]) passed.unshift(each);
    const way = passed.slice(1).map((each) => by.items[each]);
    way.forEach((act, each) => this.#leaveOut(this.#edgesOf(passed[each], act)));
    const seen = new Set(passed);
    let from = state;
    for (let next = at; next >= 0 && way.length < MOST_ACTS; next = this.#best(from, seen)) {
      this.#leaveOut(this.#edgesOf(from, taken.items[next]));
      way.push(taken.items[next]);
      from = targets.items[next];
      seen.add(from);
    }
    return { way, isWhole: this.#isEnd(from), edges: before - this.left.size };
  }

  /**
   * @param {number} from
   * @param {Set<number>} seen
   * @returns {number} the place of the act that goes over the most edges that are left, and leads to a state that
   * wasn't seen; -1 if none does
   */
  #best(from, seen) {
    const { starts: { items }, targets } = this.search;
    let best = -1;
    let most = -1;
    for (let at = items[from]; at < items[from + 1]; at += 1) {
      if (seen.has(targets.items[at])) continue;
      const many = this.#many(from, at);
      if (many > most) best = at;
      if (many > most) most = many;
    }
    return best;
  }

  /** @param {number} state @returns {boolean} whether no act leads on from it */
  #isEnd(state) {
    const { starts: { items } } = this.search;
    return items[state] === items[state + 1];
  }

  /** @param {number} from @param {number} at the place of an act @returns {number} how many edges of it are left */
  #many(from, at) {
    return this.#edgesOf(from, this.search.taken.items[at]).filter((edge) => this.left.has(edge)).length;
  }

  /** @param {string[]} edges that are gone over */
  #leaveOut(edges) {
    for (const edge of edges) this.left.delete(edge);
  }

  /** @param {number} from a state @param {number} act @returns {string[]} the edges that it goes over */
  #edgesOf(from, act) {
    const { world } = this.search;
    const agent = actorOf(act);
    world.load(from);
    const node = world.nodes[agent];
    world.step(agent, chosenIn(act));
    return world.waits(agent) ? [] : [`${node.id} ${world.answered}`, ...this.#segmentOf(agent)];
  }

  /** @param {number} agent @returns {string[]} the edges of its accesses within the last act */
  #segmentOf(agent) {
    const { lists, nodes, recent } = this.search.world;
    const ids = [...lists.members(recent[agent]), nodes[agent].id];
    return ids.slice(1).map((next, at) => `${ids[at]} to ${next}`);
  }
}

/**
 * @param {Search} search that is closed
 * @param {Node[]} nodes whose edges are to be gone over
 * @param {Iterable<number>} states in which each of these edges is gone over first
 * @returns {CoveringWay[]}
 */
export const coveringWays = (search, nodes, states) => new Covering(search, nodes).ways(states);
