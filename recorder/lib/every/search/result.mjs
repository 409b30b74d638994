// What a search has found, in the form in which the proved search reports it.

import { Conflicts } from "./conflicts.mjs";
import { hexOf } from "./raw-elements.mjs";
import { DOES, isChoice, isMark } from "./nodes.mjs";
import { nodeAnswerText } from "./node-texts.mjs";
import { actorOf, chosenIn } from "./chosen-acts.mjs";
import { goingOnIn, markBefore, sourcesIn } from "./settled.mjs";

/** @typedef {import("./search.mjs").Search} Search */
/** @typedef {import("./nodes.mjs").Node} Node */
/** @typedef {import("./conflicts.mjs").Conflict} Conflict */

/** @typedef {[number, string]} ActData an agent, and what it did */
/** @typedef {{ states: number, first: number }} FoundStates how many states have something, and the first one */
/** @typedef {FoundStates & { text: string }} FoundText */
/** @typedef {FoundStates & { one: Node, other: Node }} FoundPair */
/** @typedef {FoundStates & { memory: number }} FoundFinal */
/** @typedef {FoundStates & { unknown: import("./world.mjs").Unknown }} FoundUnknown */

/** What most states have: no text, and no conflict. @type {ReadonlySet<string>} */
const NO_TEXTS = new Set();

/** @type {ReadonlyMap<string, Conflict>} */
const NO_PAIRS = new Map();

/** Finds the kinds of the states of a search that has run. */
export class Kinds {
  /** @param {Search} search */
  constructor(search) {
    this.search = search;
    this.conflictsHere = new Conflicts(search.world);
    /** @type {Map<string, FoundText>} */
    this.failed = new Map();
    /** @type {FoundStates | undefined} */
    this.deadlock = undefined;
    /** @type {FoundStates | undefined} */
    this.noWayOut = undefined;
    /** @type {FoundStates | undefined} of agents that use an object: no order of their operations fits */
    this.wrong = undefined;
    /** @type {FoundStates | undefined} of the same: an operation waits for ever that could go on */
    this.lost = undefined;
    /** How many states of these aren't judged. */
    this.notJudged = 0;
    /** @type {Uint8Array | undefined} of these: in which states agents only spin, though an operation could go on */
    this.spin = undefined;
    /** @type {Map<string, FoundPair>} */
    this.conflicts = new Map();
    /** @type {Set<number>} of agents that use an object: the states with a conflict */
    this.conflicting = new Set();
    /** @type {Uint8Array | undefined} of these: of each state whether a way leads there that passes no such state */
    this.before = undefined;
    /** @type {Map<number, FoundFinal>} by the numbers of their bytes */
    this.finals = new Map();
    /** @type {Map<string, FoundUnknown>} */
    this.unknown = new Map();
    this.finalStates = 0;
    /** Whether some agent has ended in one of them, and hasn't thrown. */
    this.hasEnd = false;
    /** @type {Uint8Array | undefined} of each state whether one without an act is reached, if that was looked for */
    this.leads = undefined;
  }

  /** Looks at all states; those of a search that isn't closed as far as it has all of their depth. */
  find() {
    const { search } = this;
    const { world } = search;
    const depth = search.isClosed ? Infinity : search.depths.items[search.expanded];
    for (let state = 0; state < search.count && search.depths.items[state] <= depth; state += 1) {
      world.load(state);
      this.#look(state);
    }
    const last = world.program.mayLack ? search.count : 0;
    for (let state = 0; state < last && search.depths.items[state] <= depth; state += 1) this.#lookForUnknown(state);
    if (search.isClosed && search.lost === undefined) this.#findNoWayOut();
    return this;
  }

  /** @param {number} state that is loaded */
  #look(state) {
    const { world } = this.search;
    const { texts, hasEnd, isFinal, isDeadlock, isLost, isWrong } = endingHere(this.search);
    this.hasEnd ||= hasEnd;
    if (isWrong) this.wrong = more(this.wrong, state);
    if (isLost) this.lost = more(this.lost, state);
    if (world.operations?.isJudged === false) this.notJudged += 1;
    // Where agents are learned, what a list gives to a loop or to a pattern takes time.
    const sorted = texts.size > 0 ? [...texts].sort(inBytes) : [];
    for (let at = 0; at < sorted.length; at += 1) count(this.failed, sorted[at], state, { text: sorted[at] });
    if (isDeadlock) this.deadlock = more(this.deadlock, state);
    if (isFinal) {
      this.finalStates += 1;
      count(this.finals, world.memory, state, { memory: world.memory });
    }
    this.#lookForConflicts(state);
  }

  /** @param {number} state */
  #lookForUnknown(state) {
    /** @type {Map<string, import("./world.mjs").Unknown>} */
    const here = new Map();
    for (const unknown of this.search.unknownAt(state)) here.set(unknownName(unknown), unknown);
    const sorted = [...here.values()].sort((one, other) =>
      inOrder(one.node, other.node) || inBytes(textOf(one), textOf(other)));
    for (const unknown of sorted) count(this.unknown, unknownName(unknown), state, { unknown });
  }

  /** @param {number} state */
  #lookForConflicts(state) {
    const here = this.pairsHere();
    if (here.size === 0) return;
    if (this.search.world.operations !== undefined) this.conflicting.add(state);
    const sorted = [...here.values()].sort((a, b) => inOrder(a.one, b.one) || inOrder(a.other, b.other));
    for (const { one, other } of sorted) count(this.conflicts, `${one.id} ${other.id}`, state, { one, other });
  }

  /**
   * What agents do is known only as long as no accesses conflict.
   * @param {number} state
   * @returns {boolean} whether some way leads there that passes no state with a conflict
   */
  isWithoutConflict(state) {
    if (this.conflicting.size === 0) return true;
    this.before ??= beforeConflicts(this.search, this.conflicting);
    return this.before[state] === 1;
  }

  /** @returns {ReadonlyMap<string, Conflict>} the conflicts of the loaded state, each pair of nodes once, by name */
  pairsHere() {
    const found = this.conflictsHere.here();
    if (found.length === 0) return NO_PAIRS;
    /** @type {Map<string, Conflict>} */
    const here = new Map();
    for (let at = 0; at < found.length; at += 1) {
      const { one, other, agents } = found[at];
      const isInOrder = inOrder(one, other) < 0;
      const first = isInOrder ? one : other;
      const second = isInOrder ? other : one;
      here.set(`${first.id} ${second.id}`, { one: first, other: second, agents });
    }
    return here;
  }

  /** Looks for states from which none is reached that has no act. */
  #findNoWayOut() {
    const { search } = this;
    this.leads = leadsOut(search);
    if (search.world.operations !== undefined) {
      this.#findSpinning();
      return;
    }
    for (let state = 0; state < search.count; state += 1) {
      if (this.leads[state] === 0) this.noWayOut = more(this.noWayOut, state);
    }
  }

  /** Looks for states from which agents that use an object only spin, though an operation could go on. */
  #findSpinning() {
    const { leads, search, search: { world } } = this;
    if (leads?.includes(0) !== true) return;
    const goesOn = goingOnIn(search, leads);
    this.spin = new Uint8Array(search.count);
    for (let state = 0; state < search.count; state += 1) {
      if (leads[state] === 1 || goesOn[state] === 1) continue;
      world.load(state);
      if (!couldGoOn(world.operations)) continue;
      this.spin[state] = 1;
      this.lost = more(this.lost, state);
    }
  }

  /** @param {number} state @returns {boolean} whether agents only spin in it, though an operation could go on */
  spins(state) {
    return this.spin !== undefined && this.spin[state] === 1;
  }

  /** @returns {boolean} whether no agent ever ends, as far as all states are known */
  get neverEnds() {
    return this.search.isClosed && !this.hasEnd;
  }

  /** @param {number} state @returns {boolean} whether it has no way out */
  hasNoWayOut(state) {
    return this.search.world.operations === undefined && this.leads !== undefined && this.leads[state] === 0;
  }
}

/**
 * What kinds the loaded state has besides: texts that were thrown, whether an agent has ended, whether all have, and
 * whether it is a deadlock; of agents that use an object, whether no order of the operations fits, and whether all rest
 * though an operation could go on.
 * @param {Search} search
 * @returns {{ texts: ReadonlySet<string>, hasEnd: boolean, isFinal: boolean, isDeadlock: boolean, isLost: boolean,
 * isWrong: boolean }}
 */
export function endingHere({ world, timeouts }) {
  let ended = 0;
  let acts = 0;
  /** @type {ReadonlySet<string>} */
  let texts = NO_TEXTS;
  for (let agent = 0; agent < world.count; agent += 1) {
    const { does, text } = world.nodes[agent];
    if (does === DOES.THREW) texts = new Set(texts).add(text ?? "");
    if (does === DOES.FINISHED) ended += 1;
    if (world.canAct(agent) || (timeouts !== "never" && world.canTimeOut(agent))) acts += 1;
  }
  const { operations } = world;
  const isFinal = ended === world.count;
  const rests = !isFinal && texts.size === 0 && acts === 0;
  const isWrong = operations?.isWrong === true;
  const isLost = rests && !isWrong && couldGoOn(operations);
  const isDeadlock = rests && !isWrong && operations?.monitor.hasOpen(operations.set) !== true;
  return { texts, hasEnd: ended > 0, isFinal: isFinal && !isWrong, isDeadlock, isLost, isWrong };
}

/**
 * @param {import("./operations.mjs").MonitoredOperations} [operations] of agents that use an object
 * @returns {boolean} whether some open operation could go on in every order that fits
 */
function couldGoOn(operations) {
  if (operations === undefined || operations.isWrong || !operations.isJudged) return false;
  const { monitor, set } = operations;
  return monitor.hasOpen(set) && !monitor.isRightlyBlocked(set);
}

/** @param {Node} one @param {Node} other @returns {number} their order by automaton, then by position */
const inOrder = (one, other) => one.automaton - other.automaton || one.id - other.id;

/** @param {string} one @param {string} other @returns {number} their order by their bytes in UTF-8 */
function inBytes(one, other) {
  const [bytes, others] = [one, other].map((text) => Buffer.from(text).toString("hex"));
  if (bytes === others) return 0;
  return bytes < others ? -1 : 1;
}

/** @param {import("./world.mjs").Unknown} unknown */
const textOf = ({ node, answer }) => nodeAnswerText(node, answer);

/** @param {import("./world.mjs").Unknown} unknown */
const unknownName = (unknown) => `${unknown.node.id} ${textOf(unknown)}`;

/**
 * @template {string | number} Name
 * @template {object} More
 * @param {Map<Name, FoundStates & More>} found
 * @param {Name} name
 * @param {number} state
 * @param {More} besides
 */
function count(found, name, state, besides) {
  const known = found.get(name);
  if (known === undefined) found.set(name, { states: 1, first: state, ...besides });
  else known.states += 1;
}

/** @param {FoundStates | undefined} found @param {number} state @returns {FoundStates} */
const more = (found, state) => ({ states: (found?.states ?? 0) + 1, first: found?.first ?? state });

/**
 * @param {Search} search
 * @param {ReadonlySet<number>} conflicting the states with a conflict
 * @returns {Uint8Array} of each state whether a way leads there that passes none of these
 */
function beforeConflicts({ count: states, expanded, starts, targets }, conflicting) {
  const before = new Uint8Array(states);
  const queue = conflicting.has(0) ? [] : [0];
  before[0] = queue.length;
  for (let state = queue.pop(); state !== undefined; state = queue.pop()) {
    const end = state < expanded ? starts.items[state + 1] : 0;
    for (let at = starts.items[state]; at < end; at += 1) {
      const next = targets.items[at];
      if (before[next] === 1 || conflicting.has(next)) continue;
      before[next] = 1;
      queue.push(next);
    }
  }
  return before;
}

/** @param {Search} search that is closed @returns {Uint8Array} of each state whether one without an act is reached */
function leadsOut(search) {
  const { count: states, starts } = search;
  const leads = new Uint8Array(states);
  for (let state = 0; state < states; state += 1) {
    if (starts.items[state] === starts.items[state + 1]) leads[state] = 1;
  }
  markBefore(sourcesIn(search), leads);
  return leads;
}

/**
 * What an agent does in the loaded state, in words; the world goes on.
 * @param {import("./world.mjs").World} world
 * @param {number} act
 * @returns {string}
 */
function didText(world, act) {
  const agent = actorOf(act);
  const node = world.nodes[agent];
  const wasWaiting = world.waits(agent);
  const wasWoken = world.wasWoken(agent);
  if (wasWaiting) world.timeOut(agent);
  else if (!world.act(agent, chosenIn(act))) return "";
  if (wasWaiting) return "leave timed-out";
  if (wasWoken) return "leave ok";
  if (world.waits(agent)) return "wait";
  return doneText(node, world.answered);
}

/** @param {Node} node @param {import("./nodes.mjs").Answer} answer */
function doneText(node, answer) {
  if (node.does === DOES.WRITE) return "write";
  if (isMark(node)) return "end";
  if (isChoice(node)) return `choose ${nodeAnswerText(node, answer)}`;
  return `${node.does === DOES.READ ? "read" : "act"} ${nodeAnswerText(node, answer)}`;
}

/** @param {Search} search @param {number} state @returns {number[]} the acts of a run that lead there */
function wayTo(search, state) {
  const { parents, by } = search;
  /** @type {number[]} */
  const way = [];
  for (let at = state; parents.items[at] >= 0; at = parents.items[at]) way.unshift(by.items[at]);
  return search.named(way).way;
}

/** @param {Search} search @param {number} state @returns {ActData[]} the acts that lead there */
export function scheduleTo(search, state) {
  const { world } = search;
  const way = wayTo(search, state);
  world.restart();
  return way.map((act) => [actorOf(act), didText(world, act)]);
}

const MOST_CONFLICTS = 100;
const MOST_FINALS = 1_000;

/**
 * A search's result, as data for JSON.
 * @param {Search} search
 * @param {Kinds} kinds
 * @param {{ position: (node: Node) => [number, number], blocksOf: (memory: number) => string[] }} named the automaton
 * and the position in it of a node, as the file has it; the bytes of each block in hexadecimal digits
 */
export function resultOf(search, kinds, { position, blocksOf }) {
  const { isClosed, expanded, depths, lost } = search;
  /** @param {FoundStates} found */
  const row = ({ states, first }) => ({ states, schedule: scheduleTo(search, first) });
  /** @param {FoundStates | undefined} found */
  const kind = (found) => (found === undefined ? null : row(found));
  const { failed, deadlock, noWayOut, conflicts, finals, finalStates } = kinds;
  /** @param {import("./world.mjs").Unknown} unknown */
  const edge = ({ node, answer }) => {
    const [automaton, at] = position(node);
    return { automaton, node: at, answer: nodeAnswerText(node, answer) };
  };
  const unknown = [...kinds.unknown.values()].map(({ unknown: one, ...found }) => ({ ...edge(one), ...row(found) }));
  return {
    timeouts: search.timeouts, limit: search.limit, closed: isClosed, states: search.count, acts: search.acts ?? 0,
    expanded: isClosed ? null : expanded, depth: isClosed ? null : depths.items[expanded],
    deadlock: kind(deadlock), failed: [...failed.values()].map(({ text, ...found }) => ({ text, ...row(found) })),
    no_way_out: kind(noWayOut),
    unknown: lost === undefined ? unknown : [{ ...edge(lost), states: 0, schedule: [] }],
    conflicts: {
      count: conflicts.size,
      listed: [...conflicts.values()].slice(0, MOST_CONFLICTS)
        .map(({ one, other, ...found }) => ({ pair: [position(one), position(other)], ...row(found) })),
    },
    final: {
      states: finalStates, count: finals.size,
      listed: [...finals.values()].slice(0, MOST_FINALS)
        .map(({ memory, ...found }) => ({ blocks: blocksOf(memory), ...row(found) })),
    },
  };
}

/** @param {import("./world.mjs").World} world @param {number} memory @returns {string[]} the bytes of each block */
export function blocksIn({ memories, program: { bases, lengths } }, memory) {
  const from = memory * memories.width;
  const bytes = /** @type {Uint8Array} */ (memories.items);
  return lengths.map((length, block) => hexOf(bytes, from + bases[block], from + bases[block] + length));
}

/** @typedef {ReturnType<typeof resultOf>} Result */
