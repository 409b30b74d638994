// All schedules of a small module of agents, independently of the recorder: each agent runs again from its start with
// each history of answers. Only states are one in which all agents have the same whole history.

import { ARRAYS, compiled, exportsOf, foundByCheck, ran } from "./reference-agent.mjs";

/** @typedef {import("./reference-agent.mjs").Ask} Ask */
/** @typedef {import("./reference-agent.mjs").Answer} Answer */
/** @typedef {{ agent: number, block: number, byte: number }} Waiter */

/**
 * @typedef {object} State
 * @property {Uint8Array[]} memory
 * @property {History[]} histories of the agents
 * @property {Waiter[]} waiters in the order in which they came
 * @property {number[]} woken the agents that were notified, and haven't gone on
 */
/**
 * @typedef {object} Referred what the reference finds
 * @property {number} states
 * @property {boolean} isPartial whether there are more
 * @property {Set<string>} finals memories at the end, in hexadecimal digits
 * @property {Set<string>} throws
 * @property {Set<string>} checks what `check` finds
 * @property {boolean} hasDeadlock
 * @property {boolean | undefined} hasRace undefined: not all was looked at
 */

let histories = 0;

/** What an agent has been answered, and what it asks then. */
class History {
  /** @param {Ask} ask @param {History | null} before @param {Answer | undefined} answer that it was given last */
  constructor(ask, before, answer) {
    histories += 1;
    this.id = histories;
    this.ask = ask;
    this.before = before;
    this.answer = answer;
    /** @type {Map<string, History>} by the answers */
    this.then = new Map();
    /** @type {number} */
    this.calls = (before?.calls ?? 0) + (ask.what === "call" ? 1 : 0);
  }

  /** @returns {Answer[]} all that it was given */
  answers() {
    return this.before === null ? [] : [...this.before.answers(), /** @type {Answer} */ (this.answer)];
  }
}

/** @param {Answer} answer */
const keyOf = (answer) => `${typeof answer} ${answer}`;

/** @param {Uint8Array[]} memory */
const hexOf = (memory) => memory.map((bytes) => Buffer.from(bytes).toString("hex")).join("|");

/** @param {Ask} ask @returns {boolean} whether it is an access without Atomics */
const isOrdinary = ({ what }) => what === "read" || what === "write";

/** @param {Ask} ask an ordinary access @param {Uint8Array[]} memory that it reads or changes @returns {Answer} */
function answered({ what, block = 0, byte = 0, length = 0, bytes }, memory) {
  if (what === "read") return memory[block].slice(byte, byte + length);
  memory[block].set(/** @type {Uint8Array} */ (bytes), byte);
  return "done";
}

/** @param {Ask} ask @param {Uint8Array[]} memory @returns {any} the element that it is of */
const elementOf = ({ block = 0, byte = 0, kind = "" }, memory) => new ARRAYS[kind](memory[block].buffer, byte, 1);

export class Reference {
  /**
   * @param {string} source of a module
   * @param {{ states?: number, calls?: number, runs?: number }} [most] how many states, how many calls an agent may
   * make, and how often agents may run
   */
  constructor(source, most = {}) {
    const { states = 20_000, calls = 60, runs = 5_000 } = most;
    this.make = compiled(source);
    this.most = { states, calls, runs };
    this.runs = 0;
    this.exports = exportsOf(this.make);
    const { agents, buffers } = this.exports.setup;
    /** @type {number} */
    this.agents = agents;
    /** @type {number[]} */
    this.lengths = buffers;
    /** @type {History[]} */
    this.roots = [];
    this.isPartial = false;
  }

  /**
   * @param {number} agent
   * @param {History | null} before
   * @param {Answer} answer to what it asked then
   * @returns {History}
   */
  #next(agent, before, answer) {
    const known = before === null ? this.roots[agent] : before.then.get(keyOf(answer));
    if (known !== undefined) return known;
    const given = before === null ? [] : [...before.answers(), answer];
    this.runs += 1;
    /** @type {Ask | undefined} */
    let asked;
    let at = 0;
    const ended = ran(this.make, this.lengths, { agent, agents: this.agents }, (ask) => {
      if (at < given.length) return given[at++];
      asked = ask;
      return undefined;
    });
    const next = new History(/** @type {Ask} */ (asked ?? ended), before, answer);
    if (before === null) this.roots[agent] = next;
    else before.then.set(keyOf(answer), next);
    return next;
  }

  /**
   * @param {State} state
   * @param {number} agent that goes on
   * @param {Answer} answer that it is given
   * @param {Partial<State>} more what else changes
   * @param {boolean} isFine
   * @returns {State}
   */
  #gone(state, agent, answer, more, isFine) {
    const next = { ...state, memory: state.memory.map((one) => one.slice()), ...more };
    let history = this.#next(agent, state.histories[agent], answer);
    while (!isFine && isOrdinary(history.ask)) history = this.#next(agent, history, answered(history.ask, next.memory));
    next.histories = state.histories.map((one, at) => (at === agent ? history : one));
    return next;
  }

  /** @param {boolean} isFine whether each ordinary access is a step of its own @returns {State} */
  #first(isFine) {
    const memory = this.lengths.map((length) => new Uint8Array(length));
    const histories = Array.from({ length: this.agents }, (_, agent) => {
      let history = this.#next(agent, null, "");
      while (!isFine && isOrdinary(history.ask)) history = this.#next(agent, history, answered(history.ask, memory));
      return history;
    });
    return { memory, histories, waiters: [], woken: [] };
  }

  /** @param {State} state @param {number} agent @param {boolean} isFine @returns {State[]} after its next step */
  #steps(state, agent, isFine) {
    const { histories, memory, waiters, woken } = state;
    const { ask, calls } = histories[agent];
    if (ask.what === "end") return [];
    if (calls >= this.most.calls) {
      this.isPartial = true;
      return [];
    }
    const others = waiters.filter((one) => one.agent !== agent);
    if (others.length < waiters.length) {
      return ask.isTimed ? [this.#gone(state, agent, "timed-out", { waiters: others }, isFine)] : [];
    }
    if (woken.includes(agent)) {
      return [this.#gone(state, agent, "ok", { woken: woken.filter((one) => one !== agent) }, isFine)];
    }
    const changed = memory.map((one) => one.slice());
    if (isOrdinary(ask)) return [this.#gone(state, agent, answered(ask, changed), { memory: changed }, isFine)];
    return [this.#called(state, agent, changed, isFine)];
  }

  /**
   * @param {State} state
   * @param {number} agent that calls a function of Atomics
   * @param {Uint8Array[]} memory that it may change
   * @param {boolean} isFine
   * @returns {State}
   */
  #called(state, agent, memory, isFine) {
    const { ask } = state.histories[agent];
    const { name = "", values = [], block = 0, byte = 0 } = ask;
    const { waiters, woken } = state;
    if (name === "error") return this.#gone(state, agent, "error", {}, isFine);
    if (name === "notify") {
      const here = waiters.filter((one) => one.block === block && one.byte === byte).slice(0, Number(values[0]));
      const rest = waiters.filter((one) => !here.includes(one));
      const more = [...woken, ...here.map((one) => one.agent)].sort();
      return this.#gone(state, agent, here.length, { waiters: rest, woken: more }, isFine);
    }
    const element = elementOf(ask, memory);
    if (name === "wait") {
      if (element[0] !== values[0]) return this.#gone(state, agent, "not-equal", {}, isFine);
      return { ...state, waiters: [...waiters, { agent, block, byte }] };
    }
    const answer = /** @type {any} */ (Atomics)[name](element, 0, ...values);
    return this.#gone(state, agent, answer, { memory }, isFine);
  }

  /** @param {State} state */
  static #keyOf({ histories, memory, waiters, woken }) {
    const waiting = waiters.map(({ agent, block, byte }) => `${agent}.${block}.${byte}`);
    return `${histories.map(({ id }) => id)} ${waiting} ${woken} ${hexOf(memory)}`;
  }

  /**
   * @param {boolean} isFine
   * @param {(state: State, isStuck: boolean) => boolean} look whether it goes on from a state
   * @returns {number} how many states there are
   */
  #search(isFine, look) {
    const first = this.#first(isFine);
    const seen = new Set([Reference.#keyOf(first)]);
    const queue = [first];
    for (let at = 0; at < queue.length; at += 1) {
      if (seen.size > this.most.states || this.runs > this.most.runs) {
        this.isPartial = true;
        break;
      }
      const state = queue[at];
      const limited = state.histories.some(({ ask, calls }) => ask.what !== "end" && calls >= this.most.calls);
      const hasThrown = state.histories.some(({ ask }) => ask.what === "throw");
      const next = hasThrown ? [] : state.histories.flatMap((_, agent) => this.#steps(state, agent, isFine));
      if (!look(state, next.length === 0 && !limited)) break;
      for (const one of next) {
        const key = Reference.#keyOf(one);
        if (seen.has(key)) continue;
        seen.add(key);
        queue.push(one);
      }
    }
    return seen.size;
  }

  /** @returns {Referred} */
  run() {
    const [finals, throws, checks] = [new Set(), new Set(), new Set()];
    let hasDeadlock = false;
    const states = this.#search(false, ({ histories, memory }, isStuck) => {
      const thrown = histories.find(({ ask }) => ask.what === "throw");
      if (thrown !== undefined) throws.add(thrown.ask.text);
      else if (isStuck && histories.every(({ ask }) => ask.what === "end")) {
        finals.add(hexOf(memory));
        const found = foundByCheck(this.exports, memory, this.agents);
        if (found !== undefined) checks.add(found);
      } else if (isStuck) hasDeadlock = true;
      return true;
    });
    const { isPartial } = this;
    return { states, isPartial, finals, throws, checks, hasDeadlock, hasRace: this.#hasRace() };
  }

  /** @returns {boolean} whether all accesses are by Atomics, and none of two sizes share a byte */
  #isAtomic() {
    /** @type {Map<string, Ask>} */
    const places = new Map();
    const queue = [...this.roots];
    for (const { ask, then } of queue) {
      if (isOrdinary(ask)) return false;
      if (ask.length !== undefined) places.set(`${ask.block}.${ask.byte}.${ask.length}`, ask);
      queue.push(...then.values());
    }
    const all = [...places.values()];
    return all.every((one, at) => !all.slice(at + 1).some((other) => sharesByte(one, other)));
  }

  /** @returns {boolean | undefined} */
  #hasRace() {
    if (this.#isAtomic() && !this.isPartial) return false;
    this.isPartial = false;
    let hasRace = false;
    this.#search(true, (state) => {
      hasRace = races(state);
      return !hasRace;
    });
    return hasRace || !this.isPartial ? hasRace : undefined;
  }
}

/** @param {Ask} one @param {Ask} other @returns {boolean} */
function sharesByte({ block, byte = 0, length = 0 }, { block: where, byte: from = 0, length: size = 0 }) {
  return block === where && byte < from + size && from < byte + length;
}

/** @param {State} state @returns {boolean} whether two agents are about to access the same bytes, as a race is */
function races({ histories, memory, waiters, woken }) {
  const accesses = histories.flatMap(({ ask }, agent) => {
    const isAsleep = woken.includes(agent) || waiters.some((one) => one.agent === agent);
    const isNone = ask.name === "error" || ask.name === "notify" || ask.length === undefined;
    return isNone || isAsleep ? [] : [{ ...ask, writes: writesNow(ask, memory) }];
  });
  return accesses.some((one, at) => accesses.slice(at + 1).some((other) => {
    if (!sharesByte(one, other)) return false;
    const isSame = one.byte === other.byte && one.length === other.length;
    return (one.writes || other.writes) && !(isSame && one.what === "call" && other.what === "call");
  }));
}

/** @param {Ask} ask @param {Uint8Array[]} memory @returns {boolean} */
function writesNow(ask, memory) {
  const { what, name = "", values = [] } = ask;
  if (what !== "call") return what === "write";
  if (name !== "compareExchange") return name !== "load" && name !== "wait";
  const element = elementOf(ask, memory);
  const expected = new ARRAYS[ask.kind ?? ""](1);
  [expected[0]] = values;
  return element[0] === expected[0];
}
