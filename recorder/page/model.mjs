// A run as its page shows it: its steps, and for each of them the memory, who waits where, and where the agents are.
// This code runs in pages and in tests. It doesn't depend on how things are shown.

import { helpersIn } from "../script/helpers.mjs";
import { Rows } from "./memory-rows.mjs";
import { Views, write } from "./elements.mjs";
import { Stepper } from "./steps.mjs";
import { viewElementText } from "./words.mjs";

/** @typedef {import("./run-data.mjs").RunData} RunData */
/** @typedef {import("./steps.mjs").Step} Step */

/**
 * @typedef {object} AgentState
 * @property {number} place of the code at which it is, or -1
 * @property {string} does what it is at, in words
 * @property {"waits" | "woken" | "runs" | "done" | "before"} is
 */

/**
 * @typedef {object} State after a step
 * @property {Uint8Array[]} blocks
 * @property {Uint8Array[]} before the blocks before the last step that has changed something
 * @property {Map<string, number[]>} lines the agents that wait at each place, oldest first
 * @property {AgentState[]} agents
 * @property {number} changedBy the last step that has changed something
 */

/** @param {number} block @param {number} byte */
export const placeKey = (block, byte) => `${block} ${byte}`;

/** A run, as its page shows it. */
export class Run {
  /** @param {RunData} data */
  constructor(data) {
    this.data = data;
    this.views = new Views(data);
    this.steps = new Stepper(data, this.views).all();
    this.failing = this.#failing();
    this.racing = data.races.map((pair) => pair.map((event) => this.#stepOf(event)));
    this.rows = new Rows(this.views, this.steps).all();
    /** @type {number[]} the last step of each agent */
    this.last = Array.from({ length: data.agents }, (_, agent) => this.#lastOf(agent));
  }

  /** @param {number} index of the step @returns {State} how things are after a step */
  stateAt(index) {
    const blocks = this.data.blocks.map((length) => new Uint8Array(length));
    const changes = this.steps.map(({ stores }) => stores.length > 0);
    const changedBy = Math.max(0, changes.lastIndexOf(true, index));
    let before = blocks;
    /** @type {Map<string, number[]>} */
    const lines = new Map();
    /** @type {(number | undefined)[]} */
    const latest = [];
    for (let at = 0; at <= index; at += 1) {
      const step = this.steps[at];
      if (at === changedBy) before = blocks.map((bytes) => bytes.slice());
      for (const store of step.stores) write(blocks, store);
      if (step.agent !== undefined && step.what !== "stuck") latest[step.agent] = at;
      moveLine(lines, step);
    }
    const agents = this.last.map((_, agent) => this.#agentAt(agent, latest[agent], index, lines));
    return { blocks, before, lines, agents, changedBy };
  }

  /**
   * The step to which one goes from another by the next change of agents, or back to the one before.
   * @param {number} index
   * @param {1 | -1} way
   */
  changeFrom(index, way) {
    let at = index + way;
    while (at > 0 && at < this.steps.length - 1 && !this.steps[at].isSwitch) at += way;
    return Math.max(0, Math.min(at, this.steps.length - 1));
  }

  /**
   * The access that fails to which one goes from a step: each in turn.
   * @param {number} index
   */
  failingFrom(index) {
    const at = this.failing.indexOf(index);
    return this.failing[(at < 0 ? this.failing.length - 1 : at + 1) % this.failing.length];
  }

  /**
   * @param {number} agent
   * @param {number | undefined} at its latest step
   * @param {number} index the step at which one is
   * @param {Map<string, number[]>} lines
   * @returns {AgentState}
   */
  #agentAt(agent, at, index, lines) {
    if (at === undefined) return { place: -1, is: "before", does: "hasn't begun" };
    const { place, what, fact, entry } = this.steps[at];
    if (what === "wait" && fact?.place !== undefined) {
      const line = lines.get(placeKey(fact.place.block, fact.place.byte)) ?? [];
      const element = viewElementText(fact.does);
      if (line.includes(agent)) return { place, is: "waits", does: `waits at ${element} since ${entry}` };
      return { place, is: "woken", does: `was woken at ${element}` };
    }
    const isOver = at === this.last[agent] && index >= at;
    if (!isOver) return { place, is: "runs", does: "runs" };
    return { place, is: "done", does: "does no more" };
  }

  /** @param {number} agent */
  #lastOf(agent) {
    return this.steps.map((step) => (step.what === "stuck" ? undefined : step.agent)).lastIndexOf(agent);
  }

  /** @param {number} event @returns {number} the step of an event, or -1 */
  #stepOf(event) {
    return this.steps.findIndex((step) => step.event === event);
  }

  /** @returns {number[]} the steps that fail, in their order; the end if none does */
  #failing() {
    const { ending, detail, races, standings } = this.data;
    const end = this.steps.length - 1;
    if (ending === "race" && races.length > 0) {
      const pair = races[0].map((event) => this.#stepOf(event)).filter((at) => at >= 0);
      return pair.length > 0 ? pair.sort((one, other) => one - other) : [end];
    }
    if (ending === "deadlock" || ending === "lost wake-up") {
      const helpers = helpersIn(this.data.views);
      const sleepers = standings.filter(({ agent, standing }) => standing.at === "waits" && !helpers.has(agent));
      const waiting = sleepers.map(({ agent }) => agent);
      return [Math.max(...waiting.map((agent) => this.#lastOf(agent)), -1)].map((at) => (at < 0 ? end : at));
    }
    const isByAgent = ending === "failed" || ending === "limit";
    const agent = isByAgent ? /^agent (\d+) /.exec(detail)?.[1] : undefined;
    const last = agent === undefined ? -1 : this.#lastOf(Number(agent));
    return [last < 0 ? end : last];
  }
}

/**
 * What a step does to the lines of waiters.
 * @param {Map<string, number[]>} lines
 * @param {Step} step
 */
function moveLine(lines, { what, fact, agent }) {
  if (fact?.place === undefined || agent === undefined) return;
  const key = placeKey(fact.place.block, fact.place.byte);
  const line = lines.get(key) ?? [];
  if (what === "wait") lines.set(key, [...line, agent]);
  const woken = fact.found?.woken ?? [];
  const gone = what === "leave" ? [agent] : woken;
  if (gone.length > 0) lines.set(key, line.filter((each) => !gone.includes(each)));
}
