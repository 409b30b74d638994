// What is right of an object: its class `Model`, or the object itself, used by one agent alone. Either is learned as
// agents are, so a state of it is all that its code can still read, and the bytes. Its steps are found as they are
// asked for.

import { kindOfAsked } from "../../../script/choices.mjs";
import { BLOCKED_OUTCOME } from "../../objects/outcome-text.mjs";
import { isChoice, isEnd } from "../search/nodes.mjs";
import { World } from "../search/world.mjs";
import { CantLearn } from "./asked-nodes.mjs";

/** @typedef {import("../../objects/monitor.mjs").ModelStep} ModelStep */
/** @typedef {import("../../objects/monitor.mjs").SequentialObject} SequentialObject */
/** @typedef {import("../search/operations.mjs").Operations} Operations */

/** A model of more states isn't finished. */
export const MOST_MODEL_STATES = 65_536;

/** @typedef {{ state: number, outcome: string }} OperationEnd */

/** @type {ModelStep} */
const IS_BLOCKED = Object.freeze({ isBlocked: true });

/** The outcomes of operations, each once. */
export class Outcomes {
  constructor() {
    /** @type {string[]} */
    this.texts = [];
    /** @type {Map<string, number>} */
    this.numbers = new Map();
  }

  /** @param {string} outcome @returns {number} */
  numberOf(outcome) {
    let number = this.numbers.get(outcome);
    if (number === undefined) {
      number = this.texts.length;
      this.texts.push(outcome);
      this.numbers.set(outcome, number);
    }
    return number;
  }
}

/**
 * The outcome of the operation that was made last.
 * @implements {Operations}
 */
class LastOutcome {
  constructor() {
    this.width = 0;
    /** @type {string | undefined} */
    this.outcome = undefined;
  }

  begin() {}

  chooses() {
    this.outcome = undefined;
  }

  acts() {}

  /** @param {number} _agent @param {string} outcome */
  ends(_agent, outcome) {
    this.outcome = outcome;
  }

  write() {}

  read() {}

  isAt() {
    return true;
  }

  exchange() {}
}

/** @implements {SequentialObject} */
export class ObjectModel {
  /**
   * @param {import("../search/world.mjs").Program} program one agent, which makes any call at any time
   * @param {import("../../objects/object-calls.mjs").ObjectCall[]} calls
   * @param {Outcomes} outcomes
   * @param {{ isClass: boolean, isEndless: boolean, lineOf: (node: import("../search/nodes.mjs").Node) => string }} how
   * whether it is a class `Model`; whether no wait ends by itself; where a node is asked for
   */
  constructor(program, calls, outcomes, { isClass, isEndless, lineOf }) {
    this.last = new LastOutcome();
    this.world = new World({ ...program, operations: this.last });
    this.calls = calls;
    this.outcomes = outcomes;
    this.isClass = isClass;
    this.isEndless = isEndless;
    this.lineOf = lineOf;
    /** @type {Map<string, ModelStep>} */
    this.steps = new Map();
    this.isFinished = true;
    /** @type {import("../search/nodes.mjs").Node | undefined} the first choice of the step that is made */
    this.chance = undefined;
    this.world.begin();
    this.#needGoingOn();
    this.first = this.world.save();
    /** @type {Set<number>} between operations */
    this.states = new Set([this.first]);
  }

  /**
   * @param {number} state
   * @param {number} call
   * @returns {ModelStep | undefined} undefined: there are too many states
   */
  step(state, call) {
    const name = `${state} ${call}`;
    const known = this.steps.get(name);
    if (known !== undefined) return known;
    if (this.states.size > MOST_MODEL_STATES) {
      this.isFinished = false;
      return undefined;
    }
    const step = this.#made(state, call);
    this.steps.set(name, step);
    if (!step.isBlocked) step.states.forEach((each) => this.states.add(each));
    return step;
  }

  /** @returns {string[]} the operations that were tried, and have thrown each time */
  alwaysThrow() {
    const { calls, outcomes, steps } = this;
    /** @type {Map<string, boolean>} whether each has thrown each time */
    const thrown = new Map();
    for (const [name, step] of steps) {
      const { name: operation } = calls[Number(name.split(" ")[1])];
      const throws = !step.isBlocked && outcomes.texts[step.outcome].startsWith("throws ");
      thrown.set(operation, throws && thrown.get(operation) !== false);
    }
    return [...thrown].filter(([, always]) => always).map(([operation]) => operation);
  }

  /** @param {number} state @param {number} call @returns {ModelStep} */
  #made(state, call) {
    const { calls, world } = this;
    this.chance = undefined;
    world.load(state);
    world.act(0, 1);
    if (calls.length > 1) world.act(0, call);
    const at = this.#ways([world.save()], 0);
    // If it doesn't come to an end, no time was said to pass up to now: it may pass.
    const later = at.stuck.length === 0 ? { ends: [], stuck: [] } : this.#ways(at.stuck, 1);
    return this.#stepOf([...at.ends, ...later.ends], later.stuck.length > 0, call);
  }

  /**
   * @param {OperationEnd[]} ends
   * @param {boolean} isStuck whether it can also come to a state from which it never ends
   * @param {number} call
   * @returns {ModelStep}
   */
  #stepOf(ends, isStuck, call) {
    const outcomes = new Set(ends.map(({ outcome }) => outcome));
    if (isStuck) outcomes.add(BLOCKED_OUTCOME);
    if (outcomes.size > 1) {
      const where = this.chance === undefined ? "" : `, at ${this.lineOf(this.chance)}`;
      const what = `how ${this.calls[call].text} ends goes by chance${where}`;
      throw new CantLearn(`${what}: nothing can be compared with it`, true);
    }
    const [outcome] = outcomes;
    if (outcome === BLOCKED_OUTCOME) return IS_BLOCKED;
    const states = [...new Set(ends.map(({ state }) => state))];
    return { isBlocked: false, states, outcome: this.outcomes.numberOf(outcome) };
  }

  /**
   * All that an operation can do alone, by each number that it chooses or draws.
   * @param {number[]} begun states
   * @param {number} passes what it chooses at a clock
   * @returns {{ ends: OperationEnd[], stuck: number[] }} how it ends; the states from which it doesn't
   */
  #ways(begun, passes) {
    const { last, world } = this;
    const open = [...begun];
    /** @type {Map<number, number[]>} of each state those to which it leads */
    const found = new Map();
    /** @type {OperationEnd[]} */
    const ends = [];
    /** @type {Set<number>} */
    const ending = new Set();
    for (const state of open) {
      if (found.has(state)) continue;
      /** @type {number[]} */
      const next = [];
      found.set(state, next);
      world.load(state);
      for (const chosen of this.#choices(passes)) {
        world.load(state);
        last.outcome = undefined;
        if (!world.step(0, chosen)) continue;
        this.#needGoingOn();
        const to = world.save();
        if (last.outcome === undefined) next.push(to);
        else ends.push({ state: to, outcome: last.outcome });
        if (last.outcome !== undefined) ending.add(state);
      }
      open.push(...next);
    }
    return { ends, stuck: stuckIn(found, ending) };
  }

  /**
   * @param {number} passes as above
   * @returns {number[]} what it can do in the state that is loaded, as `step` of the world takes it
   */
  #choices(passes) {
    const { isEndless, world } = this;
    const [node] = world.nodes;
    if (world.waits(0)) return !isEndless && world.canTimeOut(0) ? [0] : [];
    if (!isChoice(node)) return [0];
    const isTime = kindOfAsked(/** @type {number} */ (node.limit)).endsWith("time");
    if (this.isClass) {
      const what = isTime ? "a clock" : "chance";
      throw new CantLearn(`\`Model\` looks at ${what}, at ${this.lineOf(node)}: what is right may not go by it`, true);
    }
    if (isTime) return [world.acts(0) > 1 ? passes : 0];
    this.chance ??= node;
    return Array.from({ length: world.acts(0) }, (_, number) => number);
  }

  /** Nothing else may end it than the choice to make no further operation. */
  #needGoingOn() {
    const [node] = this.world.nodes;
    if (!isEnd(node)) return;
    const who = this.isClass ? "`Model`" : "`object`";
    throw new CantLearn(`${who} alone ${node.text === undefined ? "makes no operation" : `throws ${node.text}`}`, true);
  }
}

/**
 * @param {Map<number, number[]>} found states, and those to which each leads
 * @param {Set<number>} ending those from which an act leads to an end; it gets all from which an end is reached
 * @returns {number[]} the others
 */
function stuckIn(found, ending) {
  for (let before = -1; before !== ending.size;) {
    before = ending.size;
    for (const [state, next] of found) if (next.some((to) => ending.has(to))) ending.add(state);
  }
  return [...found.keys()].filter((state) => !ending.has(state));
}
