// The unordered accesses of a run, by vector clocks over its log, in time linear in its events.
//
// Two accesses are unordered if different agents make them on overlapping bytes, at least one writes, they aren't both
// atomic on the same bytes, and neither happens before the other. Here that is called a race, in short. ECMA-262's data
// race is narrower: both write, or the later one reads from the earlier one. What happens before what, by ECMA-262's
// clauses on synchronizes-with and happens-before, of the one execution that was made: an agent's own events in their
// order; an atomic write before an atomic read of the same bytes that reads from it; the leaving of a critical section
// of a place's waiters before each later entering; and what follows by going from one to the next.
//
// An agent's clock has a time for each agent. All that this agent did up to that time happens before what comes next.
// An agent's own time goes on when others can learn what it did: with an atomic write, and with the end of a critical
// section.

import { SCRIPT_LIMITS } from "../../../script/limits.mjs";
import { PLACES } from "../../memory/known-places.mjs";
import { FLAG } from "../../memory/log.mjs";
import { FIRST_MORE } from "../../memory/more-blocks.mjs";
import { ByteRanges } from "./byte-ranges.mjs";
import { NumberBuffer } from "./number-buffer.mjs";
import { Lines, Pairs } from "./race-lines.mjs";

/** @typedef {import("../../memory/log.mjs").Log} Log */

/**
 * Gets two accesses that race, with each byte on which they meet.
 * @callback OnRace
 * @param {number} one the position of an event in the log
 * @param {number} other that of a later one
 * @param {number} place the byte: its block times the most bytes of one, and its position there; or the number of the
 * range of bytes, if blocks are judged that no script can have
 * @returns {boolean} whether to go on
 */

/**
 * @typedef {object} Race
 * @property {number} one the position of an event in the log
 * @property {number} other that of a later one
 * @property {number} block
 * @property {number} byte the first byte on which they meet
 */

// The words of each access that is remembered for a byte.
const EACH = 6;
const EVENT = 0;
const AGENT = 1;
const TIME = 2;
const SORT = 3;
const SOURCE = 4;
const NEXT = 5;

// In place of an access: no access is alike, or no more races are wanted.
const NONE = -1;
const ENOUGH = -2;

const WRITES = 1;
const READS = 2;

/**
 * An access's sort: what it does, and its size if it is atomic, which fixes its bytes; else 0.
 * @param {number} flags
 * @param {number} size
 */
const sortOf = (flags, size) => {
  const does = (flags & FLAG.WRITES ? WRITES : 0) | (flags & FLAG.READS ? READS : 0);
  return (flags & FLAG.ATOMIC ? size << 2 : 0) | does;
};

class Judge {
  constructor() {
    /** For each byte, in which run it was accessed last, and the accesses that are remembered. */
    this.runs = new Int32Array(PLACES);
    this.heads = new Int32Array(PLACES);
    /** For each byte, the clock that its last writer left if the write was atomic, and its size; else -1. */
    this.written = new Int32Array(PLACES);
    this.sizes = new Uint8Array(PLACES);
    this.accesses = new NumberBuffer();
    this.left = new NumberBuffer();
    this.run = 0;
    this.agents = 0;
    /** @type {ByteRanges | undefined} what stands for bytes, if there are blocks that no script can have */
    this.ranges = undefined;
    this.clocks = new Int32Array(0);
    /** @type {Map<number, number>} for each place of waiters, the clock that the last one left */
    this.lines = new Map();
  }

  /**
   * Judges a run.
   * @param {Log} log
   * @param {number} agents how many
   * @param {OnRace} onRace
   * @param {ByteRanges} [ranges] those of the log, if there are blocks that no script can have
   */
  judge(log, agents, onRace, ranges) {
    this.run += 1;
    this.agents = agents;
    this.ranges = ranges;
    this.#reserve(ranges?.count ?? PLACES);
    this.accesses.length = 0;
    this.left.length = 0;
    this.clocks = new Int32Array(agents * agents);
    this.lines = new Map();
    for (let agent = 0; agent < agents; agent += 1) this.clocks[agent * agents + agent] = 1;
    for (let event = 0; event < log.length; event += 1) {
      if (!this.#step(log, event, onRace)) return;
    }
  }

  /** @param {number} places for how many there is to be room */
  #reserve(places) {
    if (places <= this.runs.length) return;
    this.runs = new Int32Array(places);
    this.heads = new Int32Array(places);
    this.written = new Int32Array(places);
    this.sizes = new Uint8Array(places);
  }

  /** @param {Log} log @param {number} event @param {OnRace} onRace @returns {boolean} whether to go on */
  #step(log, event, onRace) {
    const flags = log.flagsAt(event);
    const agent = log.agentAt(event);
    const size = log.toAt(event) - log.fromAt(event);
    const first = this.#placeOf(log.blockAt(event), log.fromAt(event));
    const last = this.ranges === undefined ? first + size : this.#placeOf(log.blockAt(event), log.toAt(event));
    if (flags & FLAG.WAITERS) this.#merge(agent, this.lines.get(first));
    if ((flags & FLAG.READS) && (flags & FLAG.ATOMIC)) this.#learn(agent, first, last, size);
    if ((flags & (FLAG.READS | FLAG.WRITES)) && !this.#access(log, event, agent, flags, first, last, onRace)) {
      return false;
    }
    if (flags & FLAG.WRITES) this.#write(agent, flags, first, last, size);
    if (flags & FLAG.WAITERS) this.lines.set(first, this.#leave(agent));
    return true;
  }

  /** @param {number} block @param {number} byte @returns {number} */
  #placeOf(block, byte) {
    return this.ranges === undefined ? block * SCRIPT_LIMITS.bytes + byte : this.ranges.at(block, byte);
  }

  /**
   * An agent takes over what a clock knows.
   * @param {number} agent
   * @param {number | undefined} clock
   */
  #merge(agent, clock) {
    if (clock === undefined) return;
    const { agents, clocks } = this;
    const { items } = this.left;
    for (let other = 0; other < agents; other += 1) {
      const own = agent * agents + other;
      if (items[clock + other] > clocks[own]) clocks[own] = items[clock + other];
    }
  }

  /** @param {number} agent @returns {number} the clock that it leaves behind; its time goes on */
  #leave(agent) {
    const { agents, clocks, left } = this;
    const at = left.take(agents);
    for (let other = 0; other < agents; other += 1) left.items[at + other] = clocks[agent * agents + other];
    clocks[agent * agents + agent] += 1;
    return at;
  }

  /**
   * An atomic read: it learns from the atomic writes of the same bytes that it reads a byte from.
   * @param {number} agent
   * @param {number} first
   * @param {number} last
   * @param {number} size in bytes
   */
  #learn(agent, first, last, size) {
    let before = -1;
    for (let byte = first; byte < last; byte += 1) {
      if (this.runs[byte] !== this.run) continue;
      const clock = this.written[byte];
      if (clock >= 0 && clock !== before && this.sizes[byte] === size) this.#merge(agent, clock);
      before = clock;
    }
  }

  /** @param {number} agent @param {number} flags @param {number} first @param {number} last @param {number} size */
  #write(agent, flags, first, last, size) {
    const { written, sizes } = this;
    const clock = flags & FLAG.ATOMIC ? this.#leave(agent) : NONE;
    for (let byte = first; byte < last; byte += 1) {
      written[byte] = clock;
      sizes[byte] = size;
    }
  }

  /**
   * An access meets what is remembered of each of its bytes, and is remembered.
   * @param {Log} log
   * @param {number} event
   * @param {number} agent
   * @param {number} flags
   * @param {number} first
   * @param {number} last
   * @param {OnRace} onRace
   */
  #access(log, event, agent, flags, first, last, onRace) {
    const { runs, heads, written, run, accesses } = this;
    const sort = sortOf(flags, log.toAt(event) - log.fromAt(event));
    const source = log.sourceAt(event);
    const time = this.clocks[agent * this.agents + agent];
    accesses.reserve((last - first) * EACH);
    const { items } = accesses;
    let { length } = accesses;
    for (let byte = first; byte < last; byte += 1) {
      if (runs[byte] !== run) {
        runs[byte] = run;
        heads[byte] = NONE;
        written[byte] = NONE;
      }
      // The latest of one agent's like accesses is enough: the others happen before all that it happens before.
      let at = heads[byte] === NONE ? NONE : this.#meet(event, agent, sort, source, byte, onRace);
      if (at === ENOUGH) return false;
      if (at === NONE) {
        at = length;
        length += EACH;
        items[at + AGENT] = agent;
        items[at + SORT] = sort;
        items[at + SOURCE] = source;
        items[at + NEXT] = heads[byte];
        heads[byte] = at;
      }
      items[at + EVENT] = event;
      items[at + TIME] = time;
    }
    accesses.length = length;
    return true;
  }

  /**
   * @param {number} event
   * @param {number} agent
   * @param {number} sort
   * @param {number} source
   * @param {number} byte
   * @param {OnRace} onRace
   * @returns {number} the remembered access of the agent that is alike, or `NONE`, or `ENOUGH`
   */
  #meet(event, agent, sort, source, byte, onRace) {
    const { items } = this.accesses;
    const clock = agent * this.agents;
    let own = NONE;
    for (let at = this.heads[byte]; at !== NONE; at = items[at + NEXT]) {
      const other = items[at + AGENT];
      if (other === agent) {
        if (items[at + SORT] === sort && items[at + SOURCE] === source) own = at;
      } else if (items[at + TIME] > this.clocks[clock + other] && conflict(items[at + SORT], sort)) {
        if (!onRace(items[at + EVENT], event, byte)) return ENOUGH;
      }
    }
    return own;
  }
}

/**
 * Whether two accesses to a byte conflict: one writes, and they aren't both atomic on the same bytes.
 * @param {number} one the sort of one
 * @param {number} other that of the other
 */
function conflict(one, other) {
  if (((one | other) & WRITES) === 0) return false;
  return one >> 2 === 0 || other >> 2 === 0 || one >> 2 !== other >> 2;
}

// One for a thread, since its arrays are large; each judgement begins anew.
const judge = new Judge();

/**
 * Whether all accesses are atomic and of one size: these never race, since their ranges are the same or disjoint.
 * @param {Log} log
 */
function areAlike(log) {
  let size = 0;
  for (let event = 0; event < log.length; event += 1) {
    const flags = log.flagsAt(event);
    if ((flags & (FLAG.READS | FLAG.WRITES)) === 0) continue;
    const own = log.toAt(event) - log.fromAt(event);
    if (size === 0) size = own;
    if ((flags & FLAG.ATOMIC) === 0 || own !== size) return false;
  }
  return true;
}

/**
 * @param {Log} log
 * @param {number} blocks how many numbers of blocks there are
 * @returns {ByteRanges | undefined} what stands for bytes, if there are blocks that no script can have
 */
const rangesOf = (log, blocks) => (blocks > FIRST_MORE ? new ByteRanges(log) : undefined);

/**
 * Whether any two accesses of a run race.
 * @param {Log} log
 * @param {number} agents how many
 * @param {number} [blocks] how many numbers of blocks there are
 * @returns {boolean}
 */
export function isRacy(log, agents, blocks = FIRST_MORE) {
  if (areAlike(log)) return false;
  let found = false;
  judge.judge(log, agents, () => {
    found = true;
    return false;
  }, rangesOf(log, blocks));
  return found;
}

/**
 * Calls back for accesses of a run that race: for each two once, as a rule.
 * @param {Log} log
 * @param {number} agents how many
 * @param {OnRace} onPair
 * @param {ByteRanges} [ranges]
 */
function forPairs(log, agents, onPair, ranges) {
  let lastOne = NONE;
  let lastOther = NONE;
  judge.judge(log, agents, (one, other, place) => {
    // Two ranges meet on many bytes.
    if (one === lastOne && other === lastOther) return true;
    lastOne = one;
    lastOther = other;
    return onPair(one, other, place);
  }, ranges);
}

/**
 * @type {(log: Log, agents: number, blocks: number, onPair: OnRace) => void} the same, by how many numbers of blocks
 * there are
 */
export const forRacing = (log, agents, blocks, onPair) => forPairs(log, agents, onPair, rangesOf(log, blocks));

/** @param {number} place the number of a byte @returns {{ block: number, byte: number }} */
const placeAt = (place) => ({ block: Math.floor(place / SCRIPT_LIMITS.bytes), byte: place % SCRIPT_LIMITS.bytes });

/**
 * The races of a run: only one of those whose accesses are alike in agent, line of code and what they do. Accesses
 * whose line isn't known are alike if they are by the same view.
 * @param {Log} log
 * @param {number} agents how many
 * @param {number} [blocks] how many numbers of blocks there are
 * @returns {Race[]} in the order of their later accesses
 */
export function racesOf(log, agents, blocks = FIRST_MORE) {
  /** @type {Race[]} */
  const races = [];
  const lines = new Lines(log);
  const pairs = new Pairs();
  const ranges = rangesOf(log, blocks);
  forPairs(log, agents, (one, other, place) => {
    if (pairs.add(lines.of(one), lines.of(other))) {
      races.push({ one, other, ...(ranges?.placeOf(place) ?? placeAt(place)) });
    }
    return true;
  }, ranges);
  return races;
}
