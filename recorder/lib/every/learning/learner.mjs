// Learns agents as automata. An edge is learned by calling the agent's function alone, with the answers of a history
// that leads to its node. Two histories are one node only if all that the agent keeps is the same.

import { AGAIN } from "../../../script/choices.mjs";
import { leftOpen } from "../../agent/answer.mjs";
import { choicesBy } from "../../agent/choosing.mjs";
import { CantShow } from "../state/object-kinds.mjs";
import { DONE, DOES, isChoice, isMark, isOwnAct, nodeOf } from "../search/nodes.mjs";
import { nodeText } from "../search/node-texts.mjs";
import { ActAccesses } from "./act-accesses.mjs";
import { CantLearn, askedEnd, isSame, keyOf } from "./asked-nodes.mjs";
import { accessed, cantText } from "./asking.mjs";
import { OtherStart, keepsClock } from "./clock-rounds.mjs";
import { putNumber } from "./given-number.mjs";
import { PART } from "./learning-progress.mjs";
import { namesRewritten, thrownText } from "./thrown.mjs";

/** @typedef {import("../search/nodes.mjs").Node} Node */
/** @typedef {import("../search/nodes.mjs").Answer} Answer */
/** @typedef {import("./asked-nodes.mjs").AskedNode} AskedNode */
/** @typedef {[Node, Answer][]} History nodes on a way, and what each was answered */

/** The agents look at their numbers, so each has an automaton of its own. */
export class LooksAtNumber extends Error {}

/** They look at a clock, or make draws that are never equal: how far their own clocks are is a part of their state. */
export class LooksAtClock extends Error {}

const NAMES_REWRITTEN = "it throws an error whose message names code that was rewritten";

/**
 * @typedef {object} Agents
 * @property {number} count
 * @property {string[]} args
 * @property {boolean[]} canBlock
 * @property {boolean} isShared whether all have one automaton
 * @property {boolean} [notesNumber] whether it is noted that an agent looks at its number, if each has its own
 */

/**
 * @typedef {object} AgentCode
 * @property {() => Function} agentNow the agent's function, from modules that keep what they keep at first
 * @property {() => string} line where the agent that runs now asks for something
 * @property {() => number} [place] the number of the place at which an agent is, once its state was shown
 * @property {(error: Error) => string} [lineOfError] where an error of agents was made
 * @property {(asked: AskedNode) => string} [key] shows the state of the agent that asks, and throws CantShow if it
 * can't; without, no two histories are one node
 * @property {() => boolean} [hasChanged] whether the agent may go on otherwise than if its state had not been shown
 * @property {import("../../objects/object-client.mjs").OperationMarks} [marks] what the client of an object calls
 */

/** @typedef {{ nodes: number, line: string }} HiddenKind how many nodes, and the line of the first one */

/** @typedef {{ node: Node, answer: Answer } | undefined} NodeOrigin of a node: the first edge that has led there */

export class Learner {
  /** How often an agent's function was called. */
  runs = 0;

  /**
   * @param {import("./asking.mjs").Asker} asker
   * @param {Agents} agents
   * @param {AgentCode} code
   */
  constructor(asker, agents, code) {
    const { agentNow, line, place = () => -1, lineOfError = line, key, hasChanged = () => false, marks } = code;
    this.asker = asker;
    this.marks = marks;
    this.choices = choicesBy((asked) => asker.choose(asked));
    this.agents = agents;
    this.agentNow = agentNow;
    this.line = line;
    this.place = place;
    this.lineOfError = lineOfError;
    this.key = key;
    this.hasChanged = hasChanged;
    /** @type {Node[]} of all automata */
    this.nodes = [];
    /** @type {Map<Node, NodeOrigin>} */
    this.origins = new Map();
    /** @type {Map<string, Node>} by what is asked for and the agent's state */
    this.states = new Map();
    /** @type {Map<string, Node>} */
    this.ends = new Map();
    /** @type {Map<string, HiddenKind>} of nodes that can't be compared with others, by the reason */
    this.hidden = new Map();
    /** @type {number[]} by the numbers of nodes their places, as far as these are known */
    this.places = [];
    this.looksAtNumber = false;
    /** Whether how far an agent's own clock is is a part of its state. */
    this.hasClock = false;
    /** Which agent runs now. */
    this.agent = 0;
    /** What agents get in place of their number. */
    this.number = () => {
      this.looksAtNumber = true;
      return this.agent;
    };
    this.changesNumber = () => void (this.looksAtNumber = true);
    /** @type {(Node | undefined)[]} by automaton */
    this.roots = [];
  }

  /** @param {number} agent @returns {number} its automaton */
  automatonOf(agent) {
    return this.agents.isShared ? 0 : agent;
  }

  /** @param {number} agent @param {Uint8Array} bytes @returns {Node} the first node of its automaton */
  root(agent, bytes) {
    const automaton = this.automatonOf(agent);
    this.roots[automaton] ??= this.#grow(agent, undefined, bytes);
    return /** @type {Node} */ (this.roots[automaton]);
  }

  /**
   * Learns an edge.
   * @param {Node} node
   * @param {Answer} answer of it
   * @param {Uint8Array} bytes what ordinary reads behind it find
   * @returns {Node} to which it leads
   */
  learn(node, answer, bytes) {
    return this.#grow(node.automaton, { node, answer }, bytes);
  }

  /** @param {Node} node @returns {History} that leads to it */
  historyOf(node) {
    /** @type {History} */
    const history = [];
    for (let origin = this.origins.get(node); origin !== undefined; origin = this.origins.get(origin.node)) {
      history.push([origin.node, origin.answer]);
    }
    return history.reverse();
  }

  /** @param {Node} node that is no end @returns {string} the line at which agents ask for it */
  lineOf(node) {
    const { asker } = this;
    const history = this.historyOf(node);
    let at = 0;
    let line = "a place that isn't known";
    const answer = () => {
      if (at === history.length) line = asker.askedAt ?? this.line();
      at += 1;
      return history[at - 1]?.[1];
    };
    asker.notesLines = true;
    this.call(node.automaton, { answer });
    asker.notesLines = false;
    return line;
  }

  /**
   * @param {number} agent
   * @param {NodeOrigin} origin the edge, or undefined for the agent's beginning
   * @param {Uint8Array} bytes
   * @returns {Node}
   */
  #grow(agent, origin, bytes) {
    /** @type {History} */
    const history = origin === undefined ? [] : [...this.historyOf(origin.node), [origin.node, origin.answer]];
    const growing = new Growing(this, history, agent, origin, bytes.slice());
    const ended = this.call(agent, growing);
    growing.needsWhole();
    if (growing.round !== undefined) throw keepsClock(this, agent, growing.round);
    if (ended !== undefined) growing.end(ended);
    return /** @type {Node} */ (growing.first);
  }

  /**
   * Calls the agent's function.
   * @param {number} agent
   * @param {import("./asking.mjs").AgentAnswers} run
   * @returns {AskedNode | undefined} how it ended, unless it was broken off
   */
  call(agent, run) {
    const { agents, asker } = this;
    const fn = this.agentNow();
    this.runs += 1;
    this.agent = agent;
    asker.agentNumber = this.number;
    const { count, args } = agents;
    const given = { buffers: [...asker.buffers], agent, agents: count, args: [...args], ...this.choices };
    if (agents.isShared || agents.notesNumber) putNumber(given, this.number, this.changesNumber);
    const body = this.marks === undefined ? () => fn(given) : () => fn(given, this.marks);
    return asker.watched(PART.AGENT, () => this.#ended(run, body));
  }

  /**
   * @param {import("./asking.mjs").AgentAnswers} run
   * @param {() => unknown} body calls the agent's function
   * @returns {AskedNode | undefined} as above
   */
  #ended(run, body) {
    const { isBroken, result, hasThrown, thrown } = this.asker.call(run, body);
    if (this.agents.isShared && this.looksAtNumber) throw new LooksAtNumber();
    if (this.key !== undefined && !this.hasClock && this.asker.looks > 0) throw new LooksAtClock();
    if (isBroken) return undefined;
    if (hasThrown) return askedEnd(this.#titleOf(thrown));
    const open = leftOpen(result, "an agent");
    if (open !== undefined) throw new CantLearn(`it ${open}`);
    return askedEnd();
  }

  /** @param {unknown} thrown by the agent @returns {string} without its stack */
  #titleOf(thrown) {
    const title = this.asker.describing(() => thrownText(thrown));
    if (!namesRewritten(thrown, title)) return title;
    throw new CantLearn(cantText(NAMES_REWRITTEN, this.lineOfError(/** @type {Error} */ (thrown))), true);
  }

  /**
   * A node, which may be a known one.
   * @param {number} automaton
   * @param {AskedNode} asked
   * @param {string | undefined} key
   * @param {NodeOrigin} origin
   * @returns {{ node: Node, isNew: boolean }}
   */
  node(automaton, asked, key, origin) {
    const known = key === undefined ? undefined : this.states.get(key);
    if (known !== undefined) return { node: known, isNew: false };
    const node = nodeOf({ ...asked, id: this.nodes.length, automaton });
    this.nodes.push(node);
    this.origins.set(node, origin);
    if (key !== undefined) this.states.set(key, node);
    return { node, isNew: true };
  }

  /** @param {any} why showing a state has failed: it is no error of the agent, unless the stack has run out */
  #failed(why) {
    if (!(why instanceof RangeError && why.message.includes("call stack"))) this.asker.refused ??= why;
    return why;
  }

  /**
   * @param {number} automaton
   * @param {AskedNode} asked by the agent that runs now
   * @returns {string | undefined} what is the same only for the same state; undefined if that can't be shown
   */
  keyOf(automaton, asked) {
    return this.textOf(automaton, asked, (why) => {
      const known = this.hidden.get(why);
      if (known === undefined) this.hidden.set(why, { nodes: 1, line: this.line() });
      else known.nodes += 1;
    });
  }

  /**
   * @param {number} automaton
   * @param {AskedNode} asked
   * @param {(why: string) => void} [hides] is called if the state can't be shown
   * @returns {string | undefined} as `keyOf`
   */
  textOf(automaton, asked, hides = () => {}) {
    if (this.key === undefined) return undefined;
    const { clock, unshown } = this.asker;
    try {
      if (unshown !== undefined) throw new CantShow(unshown);
      return `${automaton} ${this.hasClock ? clock.sinceStart() : ""} ${this.key(asked)}`;
    } catch (why) {
      if (!(why instanceof CantShow)) throw this.#failed(why);
      hides(why.message);
      return undefined;
    }
  }
}

/** A call of an agent's function that learns an edge. */
class Growing {
  /**
   * @param {Learner} learner
   * @param {History} history
   * @param {number} agent
   * @param {NodeOrigin} origin
   * @param {Uint8Array} bytes
   */
  constructor(learner, history, agent, origin, bytes) {
    this.learner = learner;
    this.history = history;
    this.at = 0;
    this.automaton = learner.automatonOf(agent);
    this.origin = origin;
    /** @type {Uint8Array | undefined} undefined: it isn't known what reads find */
    this.bytes = bytes;
    /** @type {Node | undefined} the first one that was found */
    this.first = undefined;
    const isHead = origin === undefined || isOwnAct(origin.node);
    this.accesses = new ActAccesses(isHead);
    /** What the agent does if its clock begins at another time. */
    this.other = OtherStart.behind(learner, agent, history, isHead, bytes);
    /** @type {Set<Node>} accesses that this call has shown */
    this.made = new Set();
    /** @type {string | undefined} what it did that it hadn't done before */
    this.differs = undefined;
    /** @type {import("./clock-rounds.mjs").Round | undefined} that begins with something that is kept of a clock */
    this.round = undefined;
  }

  /** @param {AskedNode} asked @returns {Answer | undefined} */
  answer(asked) {
    if (this.at === this.history.length) return this.#grow(asked);
    const [node, answer] = this.history[this.at];
    this.at += 1;
    if (isSame(node, asked)) return answer;
    this.differs = differenceText(this.at, node, asked);
    return undefined;
  }

  /** @param {AskedNode} asked */
  #grow(asked) {
    const { accesses } = this;
    const isCompared = accesses.compares(asked);
    if (accesses.areTooMany) throw this.#cant("it makes 100,000 ordinary accesses without a call of Atomics");
    const text = isCompared ? this.learner.keyOf(this.automaton, asked) : undefined;
    const difference = this.other === undefined ? "" : this.other.differenceOf(asked, text);
    const key = this.#usefulKey(text, difference);
    const begins = isChoice(asked) && asked.limit === AGAIN;
    if (begins && this.other !== undefined && (text === undefined || difference !== "")) {
      this.round = { origin: this.origin, key: text };
    }
    const { node, isNew } = this.learner.node(this.automaton, asked, key, this.origin);
    if (isNew && isCompared) this.learner.places[node.id] = this.learner.place();
    this.link(node);
    // A loop of reads that has come back to itself stops there.
    if (!isNew && this.made.has(node)) node.isAlone = true;
    if (isNew && !accesses.stops) this.made.add(node);
    const goesOn = isNew && !(isCompared && this.learner.hasChanged());
    return goesOn ? this.#further(node) : undefined;
  }

  /**
   * A read in a loop may only come back to one of this call's, or to one that is an act of its own.
   * @param {string | undefined} text the agent's state
   * @param {string | undefined} difference from that with another beginning of its clock
   * @returns {string | undefined} by what the moment is one with others
   */
  #usefulKey(text, difference) {
    if (text === undefined || difference === undefined) return undefined;
    const { accesses, learner, made } = this;
    const key = `${text} ${difference}`;
    const known = accesses.isInLoop ? learner.states.get(key) : undefined;
    return known === undefined || known.isAlone || made.has(known) ? key : undefined;
  }

  /**
   * @param {Node} node that is new
   * @returns {Answer | undefined} its answer, if it is known
   */
  #further(node) {
    let answer;
    if (isMark(node)) answer = node.isAlone ? undefined : DONE;
    else if (this.accesses.isHead) {
      // What memory holds when it goes on isn't known.
      this.bytes = undefined;
      answer = DONE;
    } else if (!isOwnAct(node) && this.bytes !== undefined) answer = accessed(node, this.bytes);
    else if (node.does === DOES.WRITE) answer = DONE;
    if (answer !== undefined) this.origin = { node, answer };
    return answer;
  }

  /** @param {Node} node to which the last edge leads */
  link(node) {
    this.first ??= node;
    this.origin?.node.edges.set(this.origin.answer, node);
  }

  /** @param {AskedNode} asked the agent's end */
  end(asked) {
    const { automaton, learner } = this;
    const key = `${automaton} ${keyOf(asked)}`;
    const known = learner.ends.get(key);
    const node = known ?? learner.node(automaton, asked, undefined, this.origin).node;
    learner.ends.set(key, node);
    this.link(node);
  }

  /** The agent must have come to the end of its history. */
  needsWhole() {
    const isShort = this.differs === undefined && this.at < this.history.length;
    const why = isShort ? `it ended before its answer ${this.at + 1}` : this.differs;
    if (why !== undefined) throw new NotTheSame(`with the same answers agents do something else: ${why}`);
  }

  /** @param {string} why */
  #cant(why) {
    this.learner.asker.refused ??= new CantLearn(why);
    return this.learner.asker.refused;
  }
}

/** An agent that did something else with the same answers. */
export class NotTheSame extends Error {}

/** @param {number} at @param {Node} node @param {AskedNode} asked */
const differenceText = (at, node, asked) =>
  `at step ${at} ${nodeText(node)} was learned, and now it is ${nodeText(/** @type {Node} */ (asked))}`;
