// Of each kind of state the schedule to it with the fewest changes of agents, then with the fewest acts; one in which
// no timed wait ends while something else can move comes before all others.

import { AGAIN } from "../../../script/choices.mjs";
import { actorOf, chosenIn } from "./chosen-acts.mjs";
import { isChoice } from "./nodes.mjs";

/** @typedef {import("./search.mjs").Search} Search */

/**
 * @typedef {object} Schedule
 * @property {number} state to which it leads
 * @property {number[]} way the acts in their order, as `actOf` has them and a run has the agents
 * @property {number[]} names which agents of the run those of the state are
 * @property {boolean} isEarly whether a timed wait ends while something else can move
 * @property {number} changes of agents
 */

// What a schedule costs, as one number: early ends first, then operations of an object, then changes, then acts.
const CHANGE = 2 ** 22;
const OPERATION = 2 ** 37;
const EARLY = 2 ** 44;

/** Numbers by what they cost, the least first. */
class Queue {
  constructor() {
    /** @type {number[]} a heap */
    this.costs = [];
    /** @type {number[]} */
    this.items = [];
  }

  /** @param {number} cost @param {number} item */
  push(cost, item) {
    const { costs, items } = this;
    let at = costs.length;
    for (let up = (at - 1) >> 1; at > 0 && costs[up] > cost; up = (at - 1) >> 1) {
      costs[at] = costs[up];
      items[at] = items[up];
      at = up;
    }
    costs[at] = cost;
    items[at] = item;
  }

  /** @returns {number} the item of the least cost, which is taken out; there must be one */
  pop() {
    const { costs, items } = this;
    const [first] = items;
    const cost = /** @type {number} */ (costs.pop());
    const item = /** @type {number} */ (items.pop());
    if (costs.length > 0) this.#sink(cost, item);
    return first;
  }

  /** @param {number} cost @param {number} item that go where the first one was, or below */
  #sink(cost, item) {
    const { costs, items } = this;
    let at = 0;
    for (let down = 1; down < costs.length; down = 2 * at + 1) {
      if (down + 1 < costs.length && costs[down + 1] < costs[down]) down += 1;
      if (costs[down] >= cost) break;
      costs[at] = costs[down];
      items[at] = items[down];
      at = down;
    }
    costs[at] = cost;
    items[at] = item;
  }
}

class Ways {
  /** @param {Search} search @param {(state: number) => boolean} passes whether ways may go on from a state */
  constructor(search, passes) {
    this.search = search;
    this.passes = passes;
    this.agents = search.world.count;
    this.isOfObject = search.world.operations !== undefined;
    const size = search.count * (this.agents + 1);
    /** Of each state with the agent that acted last: the cost of the best way there. */
    this.costs = new Float64Array(size).fill(Infinity);
    /** Where that way comes from. */
    this.from = new Int32Array(size).fill(-1);
    /** By which act, as the state before has the agents. */
    this.by = new Uint16Array(size);
    this.done = new Uint8Array(size);
    this.queue = new Queue();
  }

  /** @param {number} state @param {number} last the agent that acted last; the count of agents: none did */
  #place(state, last) {
    return state * (this.agents + 1) + last;
  }

  /**
   * Goes through the states, the nearest first.
   * @param {(state: number, way: () => Schedule) => boolean} visit gets each state with the best way to it, when that
   * is known; it says whether more states are wanted
   */
  go(visit) {
    const first = this.#place(0, this.agents);
    this.costs[first] = 0;
    this.queue.push(0, first);
    const visited = new Uint8Array(this.search.count);
    while (this.queue.items.length > 0) {
      const place = this.queue.pop();
      if (this.done[place] === 1) continue;
      this.done[place] = 1;
      const state = Math.floor(place / (this.agents + 1));
      if (visited[state] === 0 && !visit(state, () => this.#wayTo(place))) return;
      visited[state] = 1;
      if (state < this.search.expanded && this.passes(state)) this.#leave(place, state, place % (this.agents + 1));
    }
  }

  /** @param {number} place @param {number} state @param {number} last */
  #leave(place, state, last) {
    const { ends, starts, taken, targets, world } = this.search;
    world.load(state);
    const others = this.#othersCan();
    for (let at = starts.items[state]; at < starts.items[state + 1]; at += 1) {
      const act = taken.items[at];
      const agent = actorOf(act);
      const isEarly = others && world.waits(agent);
      // Agents that use an object choose at once: in a run that is no change.
      const chooses = this.isOfObject && isChoice(world.nodes[agent]);
      const isChange = !chooses && last !== agent && last !== this.agents;
      const more = (isChange ? CHANGE : 0) + (isEarly ? EARLY : 0) + (chooses ? chosenCost(world, act) : 0);
      const cost = this.costs[place] + 1 + more;
      const next = this.#place(targets.items[at], chooses && last === this.agents ? last : ends.items[at]);
      if (cost >= this.costs[next]) continue;
      this.costs[next] = cost;
      this.from[next] = place;
      this.by[next] = act;
      this.queue.push(cost, next);
    }
  }

  /** @returns {boolean} whether some agent of the loaded state can act without a time being over */
  #othersCan() {
    for (let agent = 0; agent < this.agents; agent += 1) if (this.search.world.canAct(agent)) return true;
    return false;
  }

  /** @param {number} place @returns {Schedule} */
  #wayTo(place) {
    const state = Math.floor(place / (this.agents + 1));
    const cost = this.costs[place];
    /** @type {number[]} */
    const actors = [];
    for (let at = place; this.from[at] >= 0; at = this.from[at]) actors.push(this.by[at]);
    const { way, names } = this.search.named(actors.reverse());
    const changes = Math.floor((cost % (this.isOfObject ? OPERATION : EARLY)) / CHANGE);
    return { state, way, names, isEarly: cost >= EARLY, changes };
  }
}

/**
 * @param {import("./world.mjs").World} world in which an agent that uses an object chooses
 * @param {number} act
 * @returns {number} what that costs: an operation, if it goes on with one
 */
function chosenCost({ nodes }, act) {
  return nodes[actorOf(act)].limit === AGAIN && chosenIn(act) === 1 ? OPERATION : 0;
}

/**
 * @param {Search} search that has run
 * @param {number} wanted how many names there are
 * @param {(state: number) => Iterable<string>} namesAt the kinds that a state has; the search's world may be changed
 * @param {(state: number) => boolean} [passes] whether schedules may go on from a state
 * @returns {Map<string, Schedule>} to the first state of each, in the order in which they were found
 */
export function shortestTo(search, wanted, namesAt, passes = () => true) {
  /** @type {Map<string, Schedule>} */
  const found = new Map();
  if (wanted === 0 || search.count === 0) return found;
  new Ways(search, passes).go((state, way) => {
    for (const name of namesAt(state)) if (!found.has(name)) found.set(name, way());
    return found.size < wanted;
  });
  return found;
}
