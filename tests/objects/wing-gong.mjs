// An independent checker of modules of objects: it goes through all schedules of all uses, and looks for an order of
// the operations by trying them all (Wing and Gong). It shares no code with the recorder. The objects use Int32Array
// alone. Agents are run again from their beginnings with the answers that they have got, and no two histories are one.
//
// usage: node tests/objects/wing-gong.mjs MODULE AGENTS EACH
//
// It prints a line of JSON: whether a use isn't linearizable, loses a wake-up, has a race, or was cut since an
// operation goes on for long.

import { pathToFileURL } from "node:url";
import { inspect } from "node:util";

/** More answers of one operation aren't gone through. */
const MOST_ANSWERS = 24;

/** So often an agent makes the same call with the same answer at most. */
const STILL = 3;

/** More steps of an operation alone count as waiting. */
const MOST_ALONE = 1_000;

const STOP = Object.freeze({ isStop: true });

/** @typedef {{ does: string, at: number, values: number[], isTimed?: boolean }} Request */
/** @typedef {{ ops: number[], answers: unknown[] }} Script what an agent is to do, and what it was answered */
/** @typedef {{ agent: number, call: number, outcome?: string, from: number, to: number }} Operation of a history */

/** @type {WeakMap<object, { at: number }>} where fake arrays begin, in words */
const arrays = new WeakMap();

/** @type {(request: Request) => unknown} what answers the code that runs now */
let answer = () => {
  throw new Error("nobody runs");
};

/** @param {unknown} buffer @param {number} [offset] @returns {object} in place of an array of words */
function FakeArray(buffer, offset = 0) {
  const place = { at: offset / 4 };
  const isIndex = (/** @type {unknown} */ key) => typeof key === "string" && /^\d+$/.test(key);
  const made = new Proxy({}, {
    get: (_, key) => (isIndex(key) ? answer({ does: "read", at: place.at + Number(key), values: [] }) : undefined),
    set(_, key, value) {
      answer({ does: "write", at: place.at + Number(key), values: [value | 0] });
      return true;
    },
  });
  arrays.set(made, place);
  return made;
}

/**
 * @param {string} does
 * @param {number} count of values
 * @returns {(view: object, index: number, ...given: any[]) => unknown}
 */
const call = (does, count) => (view, index, ...given) => {
  const { at } = /** @type {{ at: number }} */ (arrays.get(view));
  const values = given.slice(0, count).map((/** @type {number} */ value) => value | 0);
  if (does === "notify") return answer({ does, at: at + index, values: [given[0] ?? Infinity] });
  return answer({ does, at: at + index, values, isTimed: does === "wait" && given[1] !== undefined });
};

globalThis.Int32Array = /** @type {any} */ (FakeArray);
globalThis.Atomics = /** @type {any} */ ({
  load: call("load", 0), store: call("store", 1), add: call("add", 1), sub: call("sub", 1), or: call("or", 1),
  and: call("and", 1), xor: call("xor", 1), exchange: call("exchange", 1), compareExchange: call("compareExchange", 2),
  wait: call("wait", 1), notify: call("notify", 1),
});

/** @param {Request} request @param {number[]} memory which it changes @returns {number} what it returns */
function done({ does, at, values: [value, other] }, memory) {
  const old = memory[at];
  switch (does) {
    case "load": case "read": return old;
    case "store": case "write": case "exchange": memory[at] = value; break;
    case "add": memory[at] = (old + value) | 0; break;
    case "sub": memory[at] = (old - value) | 0; break;
    case "or": memory[at] = old | value; break;
    case "and": memory[at] = old & value; break;
    case "xor": memory[at] = old ^ value; break;
    case "compareExchange": if (old === value) memory[at] = other; break;
    default: throw new Error(does);
  }
  return does === "store" ? value : old;
}

/** @param {unknown} value @param {boolean} hasThrown @returns {string} */
const outcomeOf = (value, hasThrown) =>
  (hasThrown ? `throws ${/** @type {any} */ (value).name}: ${/** @type {any} */ (value).message}`
    : `returns ${inspect(value, { depth: Infinity, sorted: true })}`);

/** @param {any} operations @returns {any[]} */
function callsOf(operations) {
  const entries = Object.entries(operations).map(([name, given]) =>
    ({ name, ...(Array.isArray(given) ? { args: given } : { args: [], ...given }) }));
  return entries.flatMap((entry) => {
    const given = entry.args.map((/** @type {unknown} */ one) => (Array.isArray(one) ? one : [one]));
    const lists = given.length === 0 ? [[]] : given;
    return lists.map((/** @type {unknown[]} */ args) => ({ ...entry, args, after: [entry.after ?? []].flat() }));
  });
}

/**
 * @typedef {object} RunState
 * @property {number[]} memory
 * @property {Script[]} scripts of each agent
 * @property {number[]} line the agents that wait
 * @property {number[]} woken those that were woken and haven't left
 * @property {number[]} order which agent made each act
 */

/** @param {number[]} list @param {number} item @returns {number[]} */
const without = (list, item) => list.filter((one) => one !== item);

class Checker {
  /** @param {any} module @param {number} agents @param {number} each */
  constructor(module, agents, each) {
    this.module = module;
    this.agents = agents;
    this.each = each;
    this.calls = callsOf(module.operations);
    const words = module.setup.buffers[0] / 4;
    this.initial = Array.from({ length: words }, () => 0);
    this.#direct(this.initial, () => module.init?.([{}]));
    /** @type {Map<string, any>} */
    this.alone = new Map();
    this.known = new Map();
    this.found = { wrong: false, lost: false, race: false, cut: false };
  }

  /** @param {number[]} memory @param {() => unknown} body that uses it at once */
  #direct(memory, body) {
    answer = (request) => done(request, memory);
    return body();
  }

  /** @param {any} object @param {number} number @returns {unknown} */
  #made(object, number) {
    const { args, name, run } = this.calls[number];
    return run === undefined ? object[name](...args) : run(object, ...args);
  }

  /**
   * What is right behind some operations, one after the other.
   * @param {number[]} order of calls
   * @returns {string | undefined} the outcome of the last one; undefined: it waits
   */
  right(order) {
    const name = order.join();
    if (!this.alone.has(name)) {
      this.alone.set(name, this.module.Model === undefined ? this.#rightAlone(order) : this.#rightOfModel(order));
    }
    return this.alone.get(name);
  }

  /** @param {number[]} order */
  #rightOfModel(order) {
    const model = new this.module.Model();
    let outcome;
    for (const number of order) {
      outcome = this.#outcome(() => model[this.calls[number].name](...this.calls[number].args));
    }
    return outcome === "returns Symbol(sabsim.blocked)" ? undefined : outcome;
  }

  /** @param {number[]} order */
  #rightAlone(order) {
    const memory = this.initial.slice();
    let steps = 0;
    answer = (request) => {
      steps += 1;
      if (steps > MOST_ALONE) throw STOP;
      if (request.does === "notify") return 0;
      if (request.does !== "wait") return done(request, memory);
      if (memory[request.at] !== request.values[0]) return "not-equal";
      if (!request.isTimed) throw STOP;
      return "timed-out";
    };
    const object = this.module.object({ buffers: [{}], agent: 0, agents: this.agents, args: [] });
    let outcome;
    for (const number of order) {
      steps = 0;
      outcome = this.#outcome(() => this.#made(object, number));
    }
    return outcome;
  }

  /** @param {() => unknown} body @returns {string | undefined} undefined: it was stopped */
  #outcome(body) {
    try {
      return outcomeOf(body(), false);
    } catch (thrown) {
      if (thrown === STOP) return undefined;
      return outcomeOf(thrown, true);
    }
  }

  /**
   * Where an agent is.
   * @param {number} agent
   * @param {Script} script
   */
  at(agent, { ops, answers }) {
    const name = `${agent} ${ops.join()} ${JSON.stringify(answers)}`;
    let found = this.known.get(name);
    if (found === undefined) {
      found = this.#at(agent, ops, answers);
      this.known.set(name, found);
    }
    return found;
  }

  /** @param {number} agent @param {number[]} ops @param {unknown[]} answers */
  #at(agent, ops, answers) {
    /** @type {Request | undefined} */
    let request;
    let at = 0;
    answer = (asked) => {
      if (at < answers.length) return answers[at++];
      request = asked;
      throw STOP;
    };
    /** @type {{ call: number, outcome?: string, first: number, last: number }[]} */
    const operations = [];
    const object = this.module.object({ buffers: [{}], agent, agents: this.agents, args: [] });
    /** @type {Record<string, number>} */
    const free = {};
    for (const number of ops) {
      const { after, agents, name } = this.calls[number];
      if (after.length > 0 && !(free[name] > 0)) break;
      if (agents !== undefined && !agents.includes(agent)) break;
      if (after.length > 0) free[name] -= 1;
      const first = at;
      let value;
      const outcome = this.#outcome(() => (value = this.#made(object, number)));
      operations.push({ call: number, outcome, first, last: at });
      if (outcome === undefined) break;
      if (outcome.startsWith("throws ") || value === false) continue;
      const freed = new Set(this.calls.filter((other) => other.after.includes(name)).map((other) => other.name));
      for (const other of freed) free[other] = (free[other] ?? 0) + 1;
    }
    return { request, operations };
  }

  /** Goes through all uses. */
  run() {
    const sequences = [[]];
    for (const one of sequences) {
      if (one.length === this.each) continue;
      for (let number = 0; number < this.calls.length; number += 1) sequences.push([...one, number]);
    }
    /** @param {number[][]} use */
    const go = (use) => {
      if (use.length < this.agents) {
        for (const one of sequences) go([...use, one]);
        return;
      }
      this.#search(use.map((ops) => ({ ops, answers: [] })));
    };
    go([]);
    return this.found;
  }

  /** @param {Script[]} scripts */
  #search(scripts) {
    const seen = new Set();
    /** @type {RunState[]} */
    const stack = [{ memory: this.initial, scripts, line: [], woken: [], order: [] }];
    for (let state = stack.pop(); state !== undefined; state = stack.pop()) {
      const { line, memory, woken } = state;
      const answers = state.scripts.map((script) => script.answers);
      const name = JSON.stringify([memory, answers, line, woken, this.#eventsOf(state)]);
      if (seen.has(name)) continue;
      seen.add(name);
      stack.push(...this.#next(state));
    }
  }

  /**
   * The begins and ends of operations, in the order in which acts make them.
   * @param {RunState} state
   * @returns {Operation[]}
   */
  #eventsOf({ scripts, order }) {
    return scripts.flatMap((script, agent) => {
      const places = order.flatMap((who, at) => (who === agent ? [at] : []));
      return this.at(agent, script).operations.flatMap(({ call: number, first, last, outcome }) => {
        if (first === last) return [];
        const hasEnded = outcome !== undefined;
        return [{ agent, call: number, outcome, from: places[first], to: hasEnded ? places[last - 1] : Infinity }];
      });
    });
  }

  /** @param {RunState} state @returns {RunState[]} */
  #next(state) {
    const { line, scripts, woken } = state;
    const events = this.#eventsOf(state);
    if (!this.#isLinearizable(events)) {
      this.found.wrong = true;
      return [];
    }
    const requests = scripts.map((script, agent) => this.at(agent, script).request);
    this.#lookForRaces(requests, state);
    /** @type {(RunState | undefined)[]} */
    const found = [];
    for (let agent = 0; agent < this.agents; agent += 1) {
      const request = requests[agent];
      if (request === undefined) continue;
      if (line.includes(agent)) {
        if (request.isTimed) found.push(this.#answered(state, agent, "timed-out", { line: without(line, agent) }));
        continue;
      }
      found.push(this.#acted(state, agent, request));
    }
    if (found.length === 0 && woken.length === 0) this.#lookForLost(events);
    return found.flatMap((one) => one ?? []);
  }

  /**
   * @param {RunState} state
   * @param {number} agent that can act
   * @param {Request} request
   * @returns {RunState | undefined}
   */
  #acted(state, agent, request) {
    const { line, memory, scripts, woken } = state;
    if (woken.includes(agent)) return this.#answered(state, agent, "ok", { woken: without(woken, agent) });
    if (request.does === "wait") {
      if (memory[request.at] !== request.values[0]) return this.#answered(state, agent, "not-equal", {});
      return { ...state, line: [...line, agent] };
    }
    if (request.does === "notify") {
      const there = line.filter((one) => this.at(one, scripts[one]).request?.at === request.at);
      const woke = there.slice(0, request.values[0]);
      const stay = line.filter((one) => !woke.includes(one));
      return this.#answered(state, agent, woke.length, { line: stay, woken: [...woken, ...woke].sort() });
    }
    const after = memory.slice();
    const value = done(request, after);
    return this.#answered(state, agent, value, { memory: after });
  }

  /**
   * @param {RunState} state
   * @param {number} agent
   * @param {unknown} value that its call returns
   * @param {Partial<RunState>} changes
   * @returns {RunState | undefined} undefined: its operation has gone on for long
   */
  #answered(state, agent, value, changes) {
    const script = state.scripts[agent];
    const before = this.at(agent, script);
    const own = before.operations.at(-1);
    const many = script.answers.length - (own?.first ?? 0);
    if (many > MOST_ANSWERS) {
      this.found.cut = true;
      return undefined;
    }
    const next = { ops: script.ops, answers: [...script.answers, value] };
    if (many >= STILL && this.#isStill(agent, next)) return undefined;
    const scripts = state.scripts.map((one, at) => (at === agent ? next : one));
    return { ...state, scripts, order: [...state.order, agent], ...changes };
  }

  /**
   * @param {number} agent
   * @param {Script} script
   * @returns {boolean} whether its last calls were the same with the same answers: a loop of one call that changes
   * nothing
   */
  #isStill(agent, { ops, answers }) {
    const last = Array.from({ length: STILL }, (_, back) => {
      const { request } = this.at(agent, { ops, answers: answers.slice(0, answers.length - 1 - back) });
      return JSON.stringify([request, answers[answers.length - 1 - back]]);
    });
    const { request } = this.at(agent, { ops, answers });
    return request !== undefined && new Set([...last, JSON.stringify([request, answers.at(-1)])]).size === 1;
  }

  /** @param {(Request | undefined)[]} requests @param {RunState} state */
  #lookForRaces(requests, { line, memory, woken }) {
    const writes = (/** @type {Request} */ { at, does, values }) => !["load", "read", "wait", "notify"].includes(does)
      && !(does === "compareExchange" && memory[at] !== values[0]);
    for (let one = 0; one < requests.length; one += 1) {
      for (let other = 0; other < one; other += 1) {
        const [a, b] = [requests[one], requests[other]];
        if (a === undefined || b === undefined || a.at !== b.at || a.does === "notify" || b.does === "notify") continue;
        if ([one, other].some((agent) => line.includes(agent) || woken.includes(agent))) continue;
        const isOrdinary = [a, b].some(({ does }) => does === "read" || does === "write");
        if (isOrdinary && (writes(a) || writes(b))) this.found.race = true;
      }
    }
  }

  /** @param {Operation[]} events of a run that has come to rest */
  #lookForLost(events) {
    const open = events.filter(({ outcome }) => outcome === undefined);
    if (open.length > 0 && !this.#isRightlyBlocked(events, open)) this.found.lost = true;
  }

  /**
   * @param {Operation[]} events
   * @returns {boolean} whether some order fits
   */
  #isLinearizable(events) {
    const isDone = (/** @type {Set<Operation>} */ left) => [...left].every(({ outcome }) => outcome === undefined);
    return this.#orders(events, [], new Set(events), isDone);
  }

  /** @param {Operation[]} events @param {Operation[]} open */
  #isRightlyBlocked(events, open) {
    const ended = events.filter(({ outcome }) => outcome !== undefined);
    const blocks = (/** @type {Set<Operation>} */ left, /** @type {number[]} */ order) =>
      left.size === 0 && open.every(({ call: number }) => this.right([...order, number]) === undefined);
    return this.#orders(ended, [], new Set(ended), blocks);
  }

  /**
   * @param {Operation[]} events
   * @param {number[]} order of calls so far
   * @param {Set<Operation>} left
   * @param {(left: Set<Operation>, order: number[]) => boolean} isDone
   * @returns {boolean}
   */
  #orders(events, order, left, isDone) {
    if (isDone(left, order)) return true;
    for (const one of left) {
      if ([...left].some((other) => other !== one && other.to < one.from)) continue;
      const outcome = this.right([...order, one.call]);
      if (outcome === undefined || (one.outcome !== undefined && outcome !== one.outcome)) continue;
      const rest = new Set(left);
      rest.delete(one);
      if (this.#orders(events, [...order, one.call], rest, isDone)) return true;
    }
    return false;
  }
}

/** @param {string} file @param {number} agents @param {number} each */
export async function checked(file, agents, each) {
  return new Checker(await import(pathToFileURL(file).href), agents, each).run();
}

if (process.argv[1] === new URL(import.meta.url).pathname) {
  const [, , file, agents, each] = process.argv;
  console.log(JSON.stringify(await checked(file, Number(agents), Number(each))));
}
