// What is found in the states of agents, and how each is shown: by the schedule with the fewest changes of agents.
// Things that have the same message, without its numbers, are one finding.

import { verdictOf } from "../../objects/history.mjs";
import { actorOf, chosenIn } from "../search/chosen-acts.mjs";
import { DOES } from "../search/nodes.mjs";
import { endingHere } from "../search/result.mjs";
import { shortestTo } from "../search/shortest.mjs";
import { PART } from "./learning-progress.mjs";
import { runOfWay } from "./run-of-way.mjs";
import { problemOf } from "./thrown.mjs";

/** @typedef {import("../search/nodes.mjs").Node} Node */
/** @typedef {import("../search/search.mjs").Search} Search */
/** @typedef {import("../search/result.mjs").Kinds} Kinds */

/** @typedef {import("../../objects/history.mjs").HistoryEvent} HistoryEvent */

/**
 * @typedef {"deadlock" | "threw" | "check" | "race" | "no way out" | "not linearizable" | "lost wake-up"} FindingKind
 */

/**
 * @typedef {object} FoundFinding
 * @property {FindingKind} kind
 * @property {string} text what was thrown, or what `check` found, or which lines race
 * @property {number} states how many have it
 * @property {number} changes of agents
 * @property {number} acts
 * @property {boolean} isEarly whether a timed wait ends while something else can move
 * @property {boolean} goesOn whether agents go on behind the row
 * @property {number} operations of an object that are begun on the way, if it is about their history
 */

/** @type {ReadonlySet<FindingKind>} */
const OF_HISTORIES = new Set(["not linearizable", "lost wake-up"]);

/** @typedef {FoundFinding & import("./run-of-way.mjs").RunOfWay} Finding with the run that shows it */

/**
 * @typedef {{ key: string, kind: FindingKind, text: string, next?: number[] }} StateFinding something in a state; who
 * acts next to show it
 */

const MOST_LINES = 400;

/** @param {Finding} one @param {Finding} other @returns {number} which is shown first */
const byLength = (one, other) =>
  Number(one.isEarly) - Number(other.isEarly) || one.changes - other.changes || one.acts - other.acts;

/** @param {string} text @returns {string} without its numbers */
const plain = (text) => text.replace(/-?\d+/g, "#");

/** @param {string} text @returns {StateFinding} */
const threwText = (text) => ({ key: `threw ${plain(text)}`, kind: "threw", text });

export class Findings {
  /**
   * @param {import("./learned.mjs").Learned} learned
   * @param {Search} search
   * @param {Kinds} kinds
   */
  constructor(learned, search, kinds) {
    this.learned = learned;
    this.search = search;
    this.kinds = kinds;
    /** @type {Map<number, string>} what `check` found, by the numbers of bytes */
    this.problems = new Map();
    /** @type {Map<Node, string>} where nodes are asked for */
    this.lines = new Map();
  }

  /** @returns {Finding[]} those without an early end first, then those with the fewest changes of agents */
  all() {
    this.#check();
    this.#findLines();
    const { search } = this;
    /** @type {Map<string, StateFinding & { states: number }>} */
    const found = new Map();
    const depth = search.isClosed ? Infinity : search.depths.items[search.expanded];
    if (!this.#hasAny()) return [];
    for (let state = 0; state < search.count && search.depths.items[state] <= depth; state += 1) {
      for (const here of this.#at(state)) {
        const known = found.get(here.key);
        if (known === undefined) found.set(here.key, { ...here, states: 1 });
        else known.states += 1;
      }
    }
    const all = [...this.#ways(found)].map(([key, way]) => this.#finding(/** @type {any} */ (found.get(key)), way));
    return all.sort(byLength);
  }

  /**
   * @param {Map<string, StateFinding>} found
   * @returns {Map<string, import("../search/shortest.mjs").Schedule>} the way to each: what is about a history goes by
   * no state with a conflict
   */
  #ways(found) {
    const { kinds, search } = this;
    const keysAt = (/** @type {number} */ state, /** @type {boolean} */ isOfHistory) =>
      this.#at(state).filter(({ kind }) => OF_HISTORIES.has(kind) === isOfHistory).map(({ key }) => key);
    const histories = [...found.values()].filter(({ kind }) => OF_HISTORIES.has(kind)).length;
    const passes = (/** @type {number} */ state) => kinds.isWithoutConflict(state);
    return new Map([
      ...shortestTo(search, found.size - histories, (state) => keysAt(state, false)),
      ...shortestTo(search, histories, (state) => keysAt(state, true), passes),
    ]);
  }

  #hasAny() {
    const { kinds, problems } = this;
    const named = kinds.failed.size + kinds.conflicts.size + problems.size;
    if (kinds.wrong !== undefined || kinds.lost !== undefined) return true;
    return named > 0 || kinds.deadlock !== undefined || (kinds.noWayOut !== undefined && !kinds.neverEnds);
  }

  /** Calls `check` once for each different list of bytes at the end, each time as behind the `init` of a run. */
  #check() {
    const { learned, search: { world } } = this;
    const { asker, exports, plan, bases, wanted: { args } } = learned;
    if (exports.check === undefined) return;
    for (const memory of this.kinds.finals.keys()) {
      const from = memory * world.memories.width;
      const bytes = /** @type {Uint8Array} */ (world.memories.items);
      const buffers = plan.buffers.map((length, block) => {
        const buffer = new SharedArrayBuffer(length);
        new Uint8Array(buffer).set(bytes.subarray(from + bases[block], from + bases[block] + length));
        return buffer;
      });
      const check = learned.checkNow();
      const call = () => check(buffers, { agents: plan.agents, args: [...args] });
      const problem = asker.watched(PART.CHECK, () => problemOf(call));
      if (problem !== undefined) this.problems.set(memory, problem);
    }
  }

  /** Finds the lines of what conflicts, as far as there aren't too many. */
  #findLines() {
    const nodes = new Set([...this.kinds.conflicts.values()].flatMap(({ one, other }) => [one, other]));
    const { joined, learner } = this.learned;
    const lineOf = (/** @type {Node} */ node) => learner.lineOf(node);
    for (const node of [...nodes].slice(0, MOST_LINES)) {
      joined?.needLine(node, lineOf);
      this.lines.set(node, lineOf(node));
    }
  }

  /** @param {number} state @returns {StateFinding[]} what it has, each once */
  #at(state) {
    const { kinds, search, search: { world } } = this;
    world.load(state);
    const { texts, isDeadlock, isFinal, isLost, isWrong } = endingHere(search);
    /** @type {StateFinding[]} */
    const here = [];
    // In most states nobody has thrown, and what a set gives to a list takes time here.
    if (texts.size > 0) here.push(...[...texts].map(threwText));
    if (isDeadlock) here.push(this.#deadlock());
    const isKnown = kinds.isWithoutConflict(state);
    if (isKnown && isWrong) here.push({ key: "not linearizable", kind: "not linearizable", text: "" });
    const waits = isKnown && (isLost || kinds.spins(state));
    if (waits) here.push({ key: `lost wake-up ${isLost}`, kind: "lost wake-up", text: "" });
    const problem = isFinal ? this.problems.get(world.memory) : undefined;
    if (problem !== undefined) here.push({ key: `check ${plain(problem)}`, kind: "check", text: problem });
    if (kinds.conflicts.size > 0) here.push(...this.#races());
    // If no agent is to end, it is no fault that none does.
    if (kinds.hasNoWayOut(state) && !kinds.neverEnds) here.push({ key: "no way out", kind: "no way out", text: "" });
    return here;
  }

  /** @returns {StateFinding} */
  #deadlock() {
    const { world } = this.search;
    const waits = world.nodes.filter(({ does }) => does === DOES.WAIT);
    const places = waits.map(({ block, byte }) => `${block}:${byte}`).sort();
    return { key: `deadlock ${places.join(" ")}`, kind: "deadlock", text: "" };
  }

  /** @returns {StateFinding[]} */
  #races() {
    /** @type {Map<string, StateFinding>} */
    const found = new Map();
    const { nodes } = this.search.world;
    for (const { one, other, agents } of this.kinds.pairsHere().values()) {
      const lines = [one, other].map((node) => this.lines.get(node) ?? "further lines").sort().join(" and ");
      // Those accesses that come next are made at once.
      const next = agents.filter((agent) => nodes[agent] === one || nodes[agent] === other).sort();
      found.set(lines, { key: `race ${lines}`, kind: "race", text: lines, next });
    }
    return [...found.values()];
  }

  /**
   * @param {StateFinding & { states: number }} here
   * @param {import("../search/shortest.mjs").Schedule} way
   * @returns {Finding}
   */
  #finding({ key, kind, text, states }, { state, way, names, changes, isEarly }) {
    const { calls, choices, lastChooser, row, spins } = runOfWay(this.search.world, way);
    const next = (this.#at(state).find((one) => one.key === key)?.next ?? []).map((agent) => names[agent]);
    const isSpinning = kind === "lost wake-up" && this.kinds.spins(state);
    const goesOn = kind === "race" || kind === "no way out" || kind === "not linearizable" || isSpinning;
    // The choices of agents that use an object are no acts of it.
    const acts = this.learned.object === undefined ? way.length : row.length;
    const moves = { row: [...row, ...next], calls, choices, lastChooser, changes, acts };
    const events = this.#historyOf(kind, way);
    const operations = events.filter(({ call }) => call !== undefined).length;
    const { object } = this.learned;
    const verdict = object === undefined ? undefined : verdictOf(object, events, "deadlock");
    const said = operations === 0 ? text : verdict?.detail ?? text;
    return { kind, text: said, states, ...moves, isEarly, goesOn, spins, operations };
  }

  /**
   * @param {FindingKind} kind
   * @param {number[]} way the acts in their order
   * @returns {HistoryEvent[]} of a finding about the history of an object: what its agents begin and end
   */
  #historyOf(kind, way) {
    const { learned: { object }, search: { world } } = this;
    if (object === undefined || (kind !== "not linearizable" && kind !== "lost wake-up")) return [];
    const { operations } = object;
    world.restart();
    /** @type {HistoryEvent[]} */
    const events = [];
    operations.journal = events;
    for (const act of way) world.step(actorOf(act), chosenIn(act));
    operations.journal = undefined;
    return events;
  }
}
