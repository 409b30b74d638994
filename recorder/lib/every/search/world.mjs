// A state to work on, and the acts that lead from it to others (docs/MODEL.md has the definitions).

import { answerOfRead, changed, putRaw, rawAt } from "./raw-elements.mjs";
import {
  DONE, DOES, NOT_EQUAL, OK, TIMED_OUT, actsOf, isCall, isChoice, isEnd, isMark, isTimed, isWithinAct,
} from "./nodes.mjs";
import { likesOf } from "./likes.mjs";
import { Lists, StateRows } from "./state-rows.mjs";

/** @typedef {import("./nodes.mjs").Node} Node */
/** @typedef {import("./nodes.mjs").Answer} Answer */

/**
 * @typedef {object} Program agents that are automata
 * @property {number[]} lengths of the blocks
 * @property {number[]} bases of each block: where it begins in the bytes of all
 * @property {Uint8Array} initial the bytes of all blocks at first
 * @property {{ canBlock: boolean, root: Node }[]} agents with the first node of each one's automaton
 * @property {Node[]} nodes of all automata, by their numbers
 * @property {boolean} mayLack whether edges may not be there for good
 * @property {(node: Node, answer: Answer, bytes: Uint8Array) => Node | undefined} learn finds the node to which an edge
 * leads that isn't there yet; it may read these bytes. Undefined: nobody knows it
 * @property {any} [operations] of an object that the agents use: what goes along, as `Operations`
 */

/** A result that has no edge. */
export class Unknown {
  /** @param {Node} node @param {Answer} answer */
  constructor(node, answer) {
    this.node = node;
    this.answer = answer;
  }
}

// A state's row: the number of its bytes, that of its line, the agents that were woken, and of each agent its node and
// the number of the list of its recent accesses.
const BYTES = 0;
const LINE = 1;
const WOKEN = 2;
const FIRST = 3;

export class World {
  /** @param {Program} program */
  constructor(program) {
    const { agents, initial } = program;
    this.program = program;
    this.count = agents.length;
    this.bytes = Uint8Array.from(initial);
    /** @type {Node[]} */
    this.nodes = agents.map(({ root }) => root);
    /** @type {number[]} of each agent the number of a list of nodes */
    this.recent = agents.map(() => 0);
    /** The number of the list of those that wait. */
    this.line = 0;
    /** The agents that were woken and haven't left, a bit for each. */
    this.woken = 0;
    this.lists = new Lists();
    this.memories = new StateRows(Uint8Array, initial.length);
    this.operations = program.operations;
    /** Where in a row that is which goes along with the operations of an object. */
    this.behind = FIRST + 2 * agents.length;
    const width = this.behind + (program.operations?.width ?? 0);
    this.states = new StateRows(Int32Array, width);
    this.row = new Int32Array(width);
    this.hasWritten = true;
    /** The number of the bytes that were loaded. */
    this.memory = 0;
    /** @type {Unknown | undefined} why the last act leads nowhere */
    this.unknown = undefined;
    /** @type {Answer} of the last act */
    this.answered = DONE;
    /** Of each agent the first one that is like it. */
    this.likes = likesOf(program);
    this.hasLikes = this.likes.some((first, agent) => first !== agent);
    /** Where agents are once they have begun. */
    this.begun = { bytes: initial, nodes: this.nodes, recent: this.recent };
    this.operations?.begin();
  }

  /**
   * Begins: each agent in turn makes its accesses before its first call or choice.
   * @param {(agent: number) => void} [then] is called for each one behind them
   * @returns {boolean} whether all could
   */
  begin(then = () => {}) {
    for (let agent = 0; agent < this.count; agent += 1) {
      if (!this.#segment(agent, this.nodes[agent])) return false;
      then(agent);
    }
    this.begun = { bytes: this.bytes.slice(), nodes: [...this.nodes], recent: [...this.recent] };
    return true;
  }

  /** Goes back to where `begin` has led. */
  restart() {
    this.#put(this.begun);
  }

  /** Goes back to before `begin`. */
  clear() {
    const { agents, initial } = this.program;
    this.#put({ bytes: initial, nodes: agents.map(({ root }) => root), recent: agents.map(() => 0) });
  }

  /** @param {{ bytes: Uint8Array, nodes: Node[], recent: number[] }} of a state in which nobody waits or was woken */
  #put({ bytes, nodes, recent }) {
    this.bytes.set(bytes);
    this.hasWritten = true;
    this.nodes = [...nodes];
    this.recent = [...recent];
    this.line = 0;
    this.woken = 0;
    this.operations?.begin();
  }

  /**
   * An agent makes the act that it has: what it does next, or if it waits, the end of its time.
   * @param {number} agent
   * @param {number} chosen as `act` has it
   * @returns {boolean} as `act`
   */
  step(agent, chosen) {
    return this.waits(agent) ? this.timeOut(agent) : this.act(agent, chosen);
  }

  /** @param {number} [most] states @returns {number} the state's number, or -1 if it is new and there is no room */
  save(most) {
    const { row } = this;
    if (this.hasWritten) this.memory = this.memories.put(this.bytes);
    this.hasWritten = false;
    row[BYTES] = this.memory;
    row[LINE] = this.line;
    row[WOKEN] = this.woken;
    for (let agent = 0; agent < this.count; agent += 1) {
      row[FIRST + 2 * agent] = this.nodes[agent].id;
      row[FIRST + 2 * agent + 1] = this.recent[agent];
    }
    this.operations?.write(row, this.behind);
    return this.states.put(row, most);
  }

  /** @param {number} state */
  load(state) {
    const { items, width } = this.states;
    const from = state * width;
    if (this.hasWritten || this.memory !== items[from + BYTES]) {
      this.memory = items[from + BYTES];
      const { bytes, memories } = this;
      const first = this.memory * memories.width;
      for (let at = 0; at < memories.width; at += 1) bytes[at] = memories.items[first + at];
      this.hasWritten = false;
    }
    this.line = items[from + LINE];
    this.woken = items[from + WOKEN];
    for (let agent = 0; agent < this.count; agent += 1) {
      this.nodes[agent] = this.program.nodes[items[from + FIRST + 2 * agent]];
      this.recent[agent] = items[from + FIRST + 2 * agent + 1];
    }
    this.operations?.read(items, from + this.behind);
  }

  /** @param {number} state @returns {boolean} whether the world is at it */
  isAt(state) {
    const { bytes, memories, states: { items, width } } = this;
    const from = state * width;
    if (items[from + LINE] !== this.line || items[from + WOKEN] !== this.woken) return false;
    for (let agent = 0; agent < this.count; agent += 1) {
      if (items[from + FIRST + 2 * agent] !== this.nodes[agent].id) return false;
      if (items[from + FIRST + 2 * agent + 1] !== this.recent[agent]) return false;
    }
    if (this.operations?.isAt(items, from + this.behind) === false) return false;
    const first = items[from + BYTES] * bytes.length;
    for (let at = 0; at < bytes.length; at += 1) if (memories.items[first + at] !== bytes[at]) return false;
    return true;
  }

  /** @param {number} agent @returns {boolean} whether it is in the line */
  waits(agent) {
    return this.line !== 0 && this.lists.members(this.line).includes(agent);
  }

  /** @param {number} agent @returns {boolean} whether it was woken and hasn't left */
  wasWoken(agent) {
    return (this.woken & (1 << agent)) !== 0;
  }

  /** @param {number} agent @returns {boolean} whether it can act, except by its time */
  canAct(agent) {
    return !isEnd(this.nodes[agent]) && !this.waits(agent);
  }

  /** @param {number} agent that can act @returns {number} how many acts it has: one for each number of a choice */
  acts(agent) {
    return actsOf(this.nodes[agent]);
  }

  /** @param {number} agent @returns {boolean} whether a time can end its wait */
  canTimeOut(agent) {
    return isTimed(this.nodes[agent]) && this.waits(agent);
  }

  /**
   * An agent that can act does.
   * @param {number} agent
   * @param {number} [chosen] what it chooses, if it is at a choice
   * @returns {boolean} whether it leads to a state; else `unknown` is why not
   */
  act(agent, chosen = 0) {
    const node = this.nodes[agent];
    if (this.operations !== undefined && !isChoice(node)) this.operations.acts(agent);
    if (this.wasWoken(agent)) {
      this.woken &= ~(1 << agent);
      return this.#goOn(agent, OK);
    }
    // Agents that use an object choose at once: what they have accessed before stays open.
    if (isChoice(node)) return this.#goOn(agent, chosen, this.operations === undefined ? 0 : this.recent[agent]);
    if (isMark(node)) return this.#goOn(agent, this.#marked(agent, node));
    if (!isCall(node)) return this.#goOn(agent, this.#accessed(node));
    const { error } = node;
    if (error !== undefined) return this.#goOn(agent, error);
    if (node.does === DOES.NOTIFY) return this.#goOn(agent, this.#notify(node));
    if (node.does === DOES.WAIT) return this.#wait(agent, node);
    const old = rawAt(this.bytes, node.at, node.size);
    const value = changed(node, old);
    if (value !== old) this.#putElement(node, value);
    return this.#goOn(agent, node.does === DOES.STORE ? DONE : old);
  }

  /** @param {number} agent that can time out @returns {boolean} as above */
  timeOut(agent) {
    this.line = this.lists.kept(this.line, (each) => each !== agent);
    return this.#goOn(agent, TIMED_OUT);
  }

  /** @param {number} agent @param {Node} node */
  #wait(agent, node) {
    if (!this.program.agents[agent].canBlock) return this.#goOn(agent, "TypeError");
    if (rawAt(this.bytes, node.at, node.size) !== node.raw[0]) return this.#goOn(agent, NOT_EQUAL);
    this.line = this.lists.with(this.line, agent);
    this.recent[agent] = 0;
    return true;
  }

  /** @param {Node} node @returns {number} how many it wakes */
  #notify({ at, limit = Infinity }) {
    if (this.line === 0) return 0;
    let count = 0;
    this.line = this.lists.kept(this.line, (agent) => {
      if (this.nodes[agent].at !== at || count >= limit) return true;
      count += 1;
      this.woken |= 1 << agent;
      return false;
    });
    return count;
  }

  /** @param {number} agent @param {Node} node at which an operation begins or ends @returns {Answer} */
  #marked(agent, { does, limit, text }) {
    if (does === DOES.BEGINS) this.operations?.chooses(agent, /** @type {number} */ (limit));
    else this.operations?.ends(agent, /** @type {string} */ (text));
    return DONE;
  }

  /** @param {Node} node an ordinary access @returns {Answer} */
  #accessed({ at, size, written }) {
    if (written === undefined) return answerOfRead(this.bytes, at, size);
    this.bytes.set(written, at);
    this.hasWritten = true;
    return DONE;
  }

  /** @param {Node} node @param {number | bigint} value */
  #putElement({ at, size }, value) {
    putRaw(this.bytes, at, size, value);
    this.hasWritten = true;
  }

  /**
   * @param {number} agent
   * @param {Answer} answer of its node
   * @param {number} [recent] as `#segment` takes it
   * @returns {boolean}
   */
  #goOn(agent, answer, recent = 0) {
    this.answered = answer;
    const next = this.#next(this.nodes[agent], answer);
    return next !== undefined && this.#segment(agent, next, recent);
  }

  /**
   * The agent makes its accesses up to where it stops, and what it reports of its operations.
   * @param {number} agent
   * @param {Node} from
   * @param {number} [before] the list of accesses that are open
   */
  #segment(agent, from, before = 0) {
    let node = from;
    let recent = before;
    while (isWithinAct(node)) {
      const isOfOperation = isMark(node);
      const next = this.#next(node, isOfOperation ? this.#marked(agent, node) : this.#accessed(node));
      if (next === undefined) return false;
      if (!isOfOperation) recent = this.lists.with(recent, node.id);
      node = next;
    }
    this.nodes[agent] = node;
    this.recent[agent] = recent;
    return true;
  }

  /** @param {Node} node @param {Answer} answer */
  #next(node, answer) {
    const next = node.edges.get(answer) ?? this.program.learn(node, answer, this.bytes);
    if (next === undefined) this.unknown = new Unknown(node, answer);
    return next;
  }
}
