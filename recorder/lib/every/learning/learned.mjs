// Learns the agents of a module and searches all their schedules. It runs in a thread of its own, since the agents'
// code may never come back.

import { Monitor } from "../../objects/monitor.mjs";
import { planOf } from "../../options/plan.mjs";
import { basesOf } from "../search/file.mjs";
import { MonitoredOperations } from "../search/operations.mjs";
import { Search } from "../search/search.mjs";
import { CantLearn } from "./asked-nodes.mjs";
import { OwnClock } from "../../agent/own-clock.mjs";
import { KeepsClock } from "./clock-rounds.mjs";
import { AreUnlike, JoinedAutomata, UnlikeAgents } from "./joined-automata.mjs";
import { Learner, LooksAtClock, LooksAtNumber } from "./learner.mjs";
import { learnedMarks } from "./learned-marks.mjs";
import { PART } from "./learning-progress.mjs";
import { ObjectModel, Outcomes } from "./object-model.mjs";
import { problemOf } from "./thrown.mjs";

/** @typedef {import("../search/world.mjs").Program} Program */
/** @typedef {import("./learned-code.mjs").LearnedCode} LearnedCode */

/**
 * @typedef {object} MonitoredObject an object whose operations are watched
 * @property {import("../../objects/object-calls.mjs").ObjectCall[]} calls
 * @property {ObjectModel} model
 * @property {Monitor} monitor
 * @property {Outcomes} outcomes
 * @property {MonitoredOperations} operations
 * @property {() => boolean} looksAtNumber whether what is right has looked at the number of its agent
 */

/**
 * @typedef {object} LearningOptions
 * @property {string[]} args
 * @property {{ agents?: number, buffers?: number[], noBlock?: number[] }} place what the options say of the agents
 * @property {import("../search/search.mjs").Choice} timeouts
 * @property {number} limit how many states at most
 * @property {boolean} [covers] whether runs are wanted that go over each edge
 * @property {boolean} [isUnmerged] whether no two histories become one node
 * @property {number} [each] how many operations of an object each agent makes at most
 */

export class Learned {
  /** @param {LearnedCode} code @param {import("./asking.mjs").Asker} asker @param {LearningOptions} wanted */
  constructor(code, asker, wanted) {
    this.code = code;
    this.asker = asker;
    this.wanted = wanted;
    if (wanted.each !== undefined) code.each = wanted.each;
    this.exports = code.exports;
    this.plan = planOf(wanted.place, this.exports.setup);
    const { bases, length } = basesOf(this.plan.buffers);
    this.bases = bases;
    asker.begin(this.plan.buffers, bases);
    asker.isEndless = wanted.timeouts === "never";
    this.initial = this.#initial(length);
    /** @type {string | undefined} what the modules keep behind `init`, if that can be shown, once `check` is wanted */
    this.keptForCheck = undefined;
    if (this.exports.init !== undefined || this.exports.check !== undefined) code.leave();
    this.isShared = this.plan.canBlock.every((can) => can);
    /** Whether agents look at a clock, or make draws that are never equal. */
    this.hasClock = false;
    /** @type {import("./clock-rounds.mjs").KeptLook | undefined} what agents keep of it from round to round, if any */
    this.kept = undefined;
    this.unlike = new UnlikeAgents(this.plan.canBlock);
    /** @type {JoinedAutomata | undefined} those of the last search */
    this.joined = undefined;
    /** @type {Set<number>} the states in which it has learned edges */
    this.learnedAt = new Set();
    /** @type {Learner} */
    this.learner = this.#newLearner();
    /** @type {Program | undefined} */
    this.program = undefined;
    /** @type {MonitoredObject | undefined} of a module of an object: what goes along with the search */
    this.object = undefined;
  }

  /** @param {number} length @returns {Uint8Array} the bytes of all buffers as `init` leaves them */
  #initial(length) {
    const { asker, bases, code: { exports: { init } }, plan: { agents, buffers }, wanted: { args } } = this;
    const bytes = new Uint8Array(length);
    if (init === undefined) return bytes;
    const given = buffers.map((each) => new SharedArrayBuffer(each));
    const problem = asker.watched(PART.INIT, () => problemOf(() => init(given, { agents, args: [...args] })));
    if (asker.refused !== undefined) throw asker.refused;
    if (problem !== undefined) throw new CantLearn(`\`init\` ${problem}`);
    given.forEach((buffer, block) => bytes.set(new Uint8Array(buffer), bases[block]));
    return bytes;
  }

  /** @returns {any} the modules' `check`, if there is one, of modules that keep what `init` has left there */
  checkNow() {
    const { code, initial, keptForCheck } = this;
    if (this.exports.check === undefined) return undefined;
    if (keptForCheck === undefined || keptForCheck !== code.kept()) {
      code.renew();
      this.#initial(initial.length);
      this.keptForCheck = code.kept();
    }
    return code.exports.check;
  }

  /** @param {boolean} [isModel] whether it learns what is right of an object, used by one agent alone */
  #newLearner(isModel = false) {
    const { asker, code, plan, wanted } = this;
    const isShared = this.isShared && !isModel;
    const key = wanted.isUnmerged ? undefined : code.key.bind(code);
    const agents = { count: plan.agents, args: wanted.args, canBlock: plan.canBlock, isShared, notesNumber: isModel };
    const lineOfError = (/** @type {Error} */ error) => code.lineOf(error);
    const own = {
      agentNow: () => (isModel ? code.modelNow() : code.agentNow()), line: () => code.line(),
      place: () => code.place(), lineOfError, key, hasChanged: () => code.hasChanged(),
      marks: code.isObject ? this.#marks(isModel && code.hasModel) : undefined,
    };
    const learner = new Learner(asker, agents, own);
    learner.hasClock = this.hasClock;
    asker.clock = new OwnClock(this.kept !== undefined);
    // Each automaton has its own, so they need not be gone through.
    code.builtins.names.set(learner.number, "number").set(learner.changesNumber, "changesNumber");
    code.builtins.names.set(learner.choices.again, "again").set(learner.choices.choose, "choose");
    return learner;
  }

  /**
   * @param {boolean} isModel whether the client uses a class `Model`
   * @returns {import("../../objects/object-client.mjs").OperationMarks} what it calls
   */
  #marks(isModel) {
    const { asker, code } = this;
    const marks = learnedMarks(asker, code.url, () => code.calls(), isModel ? "`Model`" : "the object");
    const { names } = code.builtins;
    names.set(marks.lacks, "lacks").set(marks.begins, "begins").set(marks.ends, "ends");
    return marks;
  }

  /**
   * @returns {MonitoredObject} what goes along with a search of agents that use an object; it is learned as they are
   */
  monitored() {
    const { bases, code, initial, plan, wanted: { timeouts } } = this;
    const learner = this.#newLearner(true);
    const program = {
      lengths: plan.buffers, bases, initial, nodes: learner.nodes, mayLack: false,
      agents: [{ canBlock: plan.canBlock[0], root: learner.root(0, Uint8Array.from(initial)) }],
      learn: learner.learn.bind(learner),
    };
    const outcomes = new Outcomes();
    const calls = code.calls();
    const how = {
      isClass: code.hasModel, isEndless: timeouts === "never",
      lineOf: (/** @type {import("../search/nodes.mjs").Node} */ node) => learner.lineOf(node),
    };
    const model = new ObjectModel(program, calls, outcomes, how);
    const mayFail = calls.map(({ mayFail: outcome }) => (outcome === undefined ? outcome : outcomes.numberOf(outcome)));
    const monitor = new Monitor(model, plan.agents, mayFail);
    const operations = new MonitoredOperations(monitor, outcomes, plan.agents);
    return { calls, model, monitor, outcomes, operations, looksAtNumber: () => learner.looksAtNumber };
  }

  /**
   * Learns and searches, from the beginning again if the agents look at their numbers or at a clock, or aren't alike.
   * @template Report
   * @param {(search: Search) => Report} report what is made of it
   * @param {(states: number) => boolean} [isLate]
   * @returns {Report}
   */
  search(report, isLate) {
    for (;;) {
      try {
        return report(this.#search(isLate));
      } catch (why) {
        this.beginAgain(why);
      }
    }
  }

  /**
   * Takes other agents for alike or unlike, or another state of agents for what they do: then all is to be learned from
   * the beginning.
   * @param {unknown} why what was learned can't be kept
   * @throws it, if it is something else
   */
  beginAgain(why) {
    if (why instanceof AreUnlike) {
      this.unlike.add(why);
      return;
    }
    if (why instanceof LooksAtNumber) this.isShared = false;
    else if (why instanceof LooksAtClock) this.hasClock = true;
    else if (why instanceof KeepsClock) this.kept = why.kept;
    else throw why;
    this.learner = this.#newLearner();
  }

  /** @param {(states: number) => boolean} [isLate] */
  #search(isLate) {
    const { bases, initial, isShared, learner, plan, wanted: { limit, timeouts } } = this;
    // What an agent writes before its first call is seen by later ones.
    const bytes = Uint8Array.from(initial);
    const joined = new JoinedAutomata(learner, isShared ? [...plan.canBlock.keys()] : this.unlike.leaders());
    this.joined = joined;
    const roots = joined.roots(bytes);
    const agents = plan.canBlock.map((canBlock, agent) => ({ canBlock, root: roots[agent] }));
    this.object = this.code.isObject ? this.monitored() : undefined;
    /** @type {Search} */
    let search;
    this.learnedAt.clear();
    this.program = {
      lengths: plan.buffers, bases, initial, agents, nodes: learner.nodes, mayLack: false,
      learn: (node, answer, found) => {
        this.learnedAt.add(search.expanded);
        return joined.learn(node, answer, found);
      },
      operations: this.object?.operations,
    };
    search = new Search(this.program, { timeouts, limit, isLate });
    search.run();
    return search;
  }
}
