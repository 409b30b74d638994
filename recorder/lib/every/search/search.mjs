// All states that agents can reach, nearest first, and numbered in the order in which they are found. Of states that
// differ only by an exchange of like agents there is one, with sorted agents.

import { sortAgents } from "./likes.mjs";
import { DOES, isChoice } from "./nodes.mjs";
import { NumberList } from "./state-rows.mjs";
import { actOf, actorOf, chosenIn } from "./chosen-acts.mjs";
import { World } from "./world.mjs";

/** @typedef {"early" | "last" | "never"} Choice when a wait's time may be over */

/**
 * @typedef {object} SearchLimits
 * @property {Choice} timeouts
 * @property {number} limit how many states at most
 * @property {(states: number) => boolean} [isLate] whether the search is to stop now; it is asked now and then
 */

const ASKS_EVERY = 256;

export class Search {
  /** @param {import("./world.mjs").Program} program @param {SearchLimits} bounds */
  constructor(program, { timeouts, limit, isLate = () => false }) {
    this.world = new World(program);
    this.timeouts = timeouts;
    this.limit = limit;
    this.isLate = isLate;
    /** Of each state the number of the one from which it was found. */
    this.parents = new NumberList();
    /** Of each state by which act, as `actOf` has it and that state has the agents. */
    this.by = new NumberList();
    this.depths = new NumberList();
    /** Of the states before `expanded`, one after another: to which state each act leads. */
    this.targets = new NumberList();
    /** By which act. */
    this.taken = new NumberList();
    /** Where the agent that acts is in the state to which it leads. */
    this.ends = new NumberList();
    /** Of each agent of the first state which one of a run it is. */
    this.names = program.agents.map((_, agent) => agent);
    /** Of each agent of a state to which an act leads, which one it was before it was sorted. */
    this.moved = [...this.names];
    /** Where each state's acts begin, and behind the last one. */
    this.starts = new NumberList();
    /** @type {import("./world.mjs").Unknown | undefined} why there is no first state */
    this.lost = undefined;
    this.isClosed = false;
    /** @type {"states" | "time" | undefined} which bound was met */
    this.bound = undefined;
    /** The first state whose acts weren't all taken. */
    this.expanded = 0;
  }

  /** How many states there are. */
  get count() {
    return this.world.states.count;
  }

  /** How many acts lead to a state, of the states of which all were taken. */
  get acts() {
    return this.starts.items[this.expanded];
  }

  /** Finds the states, up to a bound. */
  run() {
    const { world } = this;
    if (!world.begin()) {
      this.lost = world.unknown;
      this.isClosed = true;
      return;
    }
    sortAgents(world, this.names);
    world.save();
    this.#found(-1, -1, 0);
    for (let state = 0; state < this.count; state += 1) {
      this.starts.push(this.targets.count);
      this.expanded = state;
      const isStopped = state % ASKS_EVERY === 0 && this.isLate(this.count);
      if (isStopped) this.bound = "time";
      if (isStopped || !this.#expand(state)) return;
    }
    this.starts.push(this.targets.count);
    this.expanded = this.count;
    this.isClosed = true;
  }

  /** @param {number} state @returns {boolean} whether all its acts were taken */
  #expand(state) {
    const { world } = this;
    world.load(state);
    if (hasThrownAt(world)) return true;
    const chooser = world.operations === undefined ? -1 : chooserIn(world);
    const times = chooser < 0 && this.#hasTimes(state);
    for (let agent = 0; agent < world.count; agent += 1) {
      if (chooser >= 0 && agent !== chooser) continue;
      const acts = world.canAct(agent) ? world.acts(agent) : 0;
      for (let chosen = 0; chosen < acts; chosen += 1) {
        if (!this.#take(state, actOf(agent, chosen), world.act(agent, chosen))) return false;
        world.load(state);
      }
      if (acts === 0 && times && world.canTimeOut(agent)) {
        if (!this.#take(state, actOf(agent, 0), world.timeOut(agent))) return false;
        world.load(state);
      }
    }
    return true;
  }

  /** @param {number} state that is loaded @returns {boolean} whether a wait's time may be over in it */
  #hasTimes(state) {
    return this.timeouts === "early" || (this.timeouts === "last" && this.#isStill(state));
  }

  /**
   * @param {number} state
   * @returns {import("./world.mjs").Unknown[]} why acts of it lead nowhere
   */
  unknownAt(state) {
    const { world } = this;
    world.load(state);
    if (hasThrownAt(world)) return [];
    const times = this.#hasTimes(state);
    /** @type {import("./world.mjs").Unknown[]} */
    const found = [];
    for (let agent = 0; agent < world.count; agent += 1) {
      const acts = world.canAct(agent) ? world.acts(agent) : Number(times && world.canTimeOut(agent));
      for (let chosen = 0; chosen < acts; chosen += 1) {
        if (!world.step(agent, chosen)) found.push(/** @type {import("./world.mjs").Unknown} */ (world.unknown));
        world.load(state);
      }
    }
    return found;
  }

  /** @param {number} state that is loaded @returns {boolean} whether no act leads to another one, except by a time */
  #isStill(state) {
    const { world } = this;
    for (let agent = 0; agent < world.count; agent += 1) {
      const acts = world.canAct(agent) ? world.acts(agent) : 0;
      for (let chosen = 0; chosen < acts; chosen += 1) {
        const isSame = world.act(agent, chosen) && world.isAt(state);
        world.load(state);
        if (!isSame) return false;
      }
    }
    return true;
  }

  /**
   * Notes where an act has led.
   * @param {number} state
   * @param {number} act
   * @param {boolean} leads
   * @returns {boolean} whether there is room for it
   */
  #take(state, act, leads) {
    const { world } = this;
    if (!leads) return true;
    const before = world.states.count;
    const end = this.#sorted(actorOf(act));
    const next = world.save(this.limit);
    if (next < 0) {
      this.bound = "states";
      return false;
    }
    if (next === before) this.#found(state, act, this.depths.items[state] + 1);
    this.targets.push(next);
    this.taken.push(act);
    this.ends.push(end);
    return true;
  }

  /**
   * Sorts the agents.
   * @param {number} agent
   * @returns {number} where it is then
   */
  #sorted(agent) {
    const { moved, world } = this;
    if (!world.hasLikes) return agent;
    for (let each = 0; each < moved.length; each += 1) moved[each] = each;
    sortAgents(world, moved);
    return moved.indexOf(agent);
  }

  /**
   * Goes a way from the first state.
   * @param {number[]} way by which acts, as each state has the agents
   * @returns {{ way: number[], names: number[] }} the same as a run has the agents; who those of the last state are
   * in it
   */
  named(way) {
    const { world } = this;
    const names = [...this.names];
    if (!world.hasLikes) return { way, names };
    world.load(0);
    const ofRun = way.map((act) => {
      const [actor, chosen] = [actorOf(act), chosenIn(act)];
      const agent = names[actor];
      world.step(actor, chosen);
      sortAgents(world, names);
      return actOf(agent, chosen);
    });
    return { way: ofRun, names };
  }

  /** @param {number} parent @param {number} act @param {number} depth */
  #found(parent, act, depth) {
    this.parents.push(parent);
    this.by.push(act);
    this.depths.push(depth);
  }
}

/**
 * Agents that use an object choose at once: a choice touches nothing, so it makes no difference when it is made.
 * @param {World} world
 * @returns {number} the first agent that chooses next, or -1
 */
function chooserIn(world) {
  for (let agent = 0; agent < world.count; agent += 1) {
    if (world.canAct(agent) && isChoice(world.nodes[agent])) return agent;
  }
  return -1;
}

/** @param {World} world @returns {boolean} whether some agent has thrown */
export function hasThrownAt(world) {
  for (let agent = 0; agent < world.count; agent += 1) if (world.nodes[agent].does === DOES.THREW) return true;
  return false;
}
