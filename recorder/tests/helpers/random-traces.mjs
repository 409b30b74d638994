// Traces from a seed, such as a run could have: agents touch few bytes in all ways, wait and are woken, and some of
// their calls throw. No trace holds the values that are read and written, so these are drawn as well.

import { Dice } from "./scripts.mjs";

/** @typedef {import("./slow-judge.mjs").Event} Event */
/** @typedef {import("./slow-judge.mjs").Range} Range */
/** @typedef {{ read: boolean, write: boolean, atomic?: boolean, waiters?: boolean }} Effect */
/** @typedef {{ agent: number, place: Range, isWoken: boolean }} Wait */

const LOAD = { read: true, write: false };
const STORE = { read: false, write: true };
const CHANGE = { read: true, write: true };
const NOTHING = { read: false, write: false };

/**
 * Calls that access an element, and what they do to it; a compareExchange that fails only reads.
 * @type {[does: string, effect: Effect][]}
 */
const ACCESSES = [
  ["load", LOAD], ["load", LOAD], ["load", LOAD], ["store", STORE], ["store", STORE], ["store", STORE],
  ["add", CHANGE], ["sub", CHANGE], ["and", CHANGE], ["or", CHANGE], ["xor", CHANGE], ["exchange", CHANGE],
  ["compareExchange", CHANGE], ["compareExchange", LOAD],
];
const CALLS = [...ACCESSES.map(([does]) => does), "wait", "notify"];
const SIZES = [1, 2, 4, 4, 4, 8];
const MOST_BYTES = 65_536;

/** A run, in which agents make one event after the other. */
class Run {
  /** @param {Dice} dice */
  constructor(dice) {
    this.dice = dice;
    this.agents = 2 + dice.below(4);
    this.blocks = dice.list(1, 3, () => dice.of([8, 8, 16, 24]));
    this.length = dice.percent(3) ? 80 + dice.below(80) : 3 + dice.below(58);
    this.sizes = dice.percent(50) ? SIZES : [dice.of(SIZES)];
    /** How likely an event is an ordinary one; a call of a place's waiters; of the agent that made the last one. */
    this.ordinary = dice.of([0, 10, 30, 60, 95]);
    this.waiters = dice.of([0, 10, 30, 60]);
    this.staying = dice.of([0, 50, 80]);
    /** How likely what an agent did is handed over to the next one. */
    this.handing = dice.of([0, 80, 95, 100, 100]);
    /** @type {(Event & { event: number })[]} */
    this.events = [];
    /** @type {number[]} */
    this.calls = Array(this.agents).fill(0);
    /** @type {Wait[]} who waits, in order of arrival */
    this.waiting = [];
  }

  /** @param {number} agent @param {string} does @param {Range} range @param {Effect} effect */
  add(agent, does, range, effect) {
    const { block, byte, size } = range;
    const { read, write, atomic = false, waiters = false } = effect;
    const source = this.dice.percent(80) ? `agents.mjs:${1 + this.dice.below(40)}:5` : null;
    const event = this.events.length;
    const call = this.calls[agent];
    this.events.push({ event, agent, call, does, block, byte, size, read, write, atomic, waiters, source });
  }

  /**
   * A call that begins and returns at once.
   * @type {Run["add"]}
   */
  call(agent, does, range, effect) {
    this.add(agent, does, range, effect);
    this.calls[agent] += 1;
  }

  /** @param {number} agent @returns {Wait | undefined} how it waits */
  waitOf(agent) {
    return this.waiting.find((each) => each.agent === agent);
  }

  /**
   * A whole element of few.
   * @param {number[]} [sizes]
   */
  element(sizes = this.sizes) {
    const block = this.dice.below(this.blocks.length);
    const size = this.dice.of(sizes);
    return { block, byte: size * this.dice.below(this.blocks[block] / size), size };
  }
}

/**
 * The trace of a seed.
 * @param {number} seed
 * @returns {string} a line of JSON for each event
 */
export function randomTrace(seed) {
  const dice = new Dice(seed);
  const run = new Run(dice);
  let agent = 0;
  while (run.events.length < run.length) {
    const next = dice.percent(run.staying) ? agent : dice.below(run.agents);
    if (next !== agent && dice.percent(run.handing)) handOver(run, agent, next);
    agent = next;
    move(run, agent);
  }
  return run.events.map((event) => `${JSON.stringify(event)}\n`).join("");
}

/**
 * An atomic write by one agent, and a read of it by the next.
 * @param {Run} run
 * @param {number} agent
 * @param {number} next
 */
function handOver(run, agent, next) {
  if (run.waitOf(agent) !== undefined || run.waitOf(next) !== undefined) return;
  const range = { block: 0, byte: run.dice.of([0, 4]), size: 4 };
  run.call(agent, "store", range, { ...STORE, atomic: true });
  run.call(next, "load", range, { ...LOAD, atomic: true });
}

/**
 * One event of an agent; one that waits can only leave.
 * @param {Run} run
 * @param {number} agent
 */
function move(run, agent) {
  const { dice } = run;
  const wait = run.waitOf(agent);
  if (wait !== undefined) leaveAtLast(run, wait);
  else if (dice.percent(run.ordinary)) accessOrdinarily(run, agent);
  else if (dice.percent(4)) callThatThrows(run, agent);
  else if (dice.percent(run.waiters)) waitOrNotify(run, agent);
  else callOfAccess(run, agent);
}

/** @param {Run} run @param {number} agent */
function callOfAccess(run, agent) {
  const [does, effect] = run.dice.of(ACCESSES);
  run.call(agent, does, run.element(), { ...effect, atomic: true });
}

/**
 * One element, unaligned bytes of a DataView, or a stretch at once, as a fill makes it.
 * @param {Run} run
 * @param {number} agent
 */
function accessOrdinarily(run, agent) {
  const { dice } = run;
  const effect = dice.percent(50) ? LOAD : STORE;
  run.add(agent, effect.read ? "read" : "write", dice.percent(70) ? run.element() : stretch(run), effect);
}

/** @param {Run} run @returns {Range} */
function stretch({ dice, blocks }) {
  const block = dice.below(blocks.length);
  const byte = dice.below(blocks[block]);
  return { block, byte, size: 1 + dice.below(blocks[block] - byte) };
}

/**
 * A call that throws accesses nothing, and its index may lie anywhere.
 * @param {Run} run
 * @param {number} agent
 */
function callThatThrows(run, agent) {
  const { dice } = run;
  const range = run.element([1, 2, 4, 8]);
  const byte = dice.of([range.byte, -range.size, run.blocks[range.block], MOST_BYTES, 2 ** 31 - 8, -(2 ** 31)]);
  run.call(agent, dice.of(CALLS), { ...range, byte }, NOTHING);
}

/**
 * A wait reads its word amid the waiters, and joins them or not; a notify wakes some of them, or finds none.
 * @param {Run} run
 * @param {number} agent
 */
function waitOrNotify(run, agent) {
  const { dice, waiting } = run;
  if (dice.percent(50)) {
    const place = waiting.length > 0 && dice.percent(70) ? dice.of(waiting).place : run.element([4, 4, 8]);
    run.call(agent, "notify", place, { ...NOTHING, waiters: true });
    wake(run, place, dice.of([1, 1, run.agents]));
    return;
  }
  const place = run.element([4, 4, 8]);
  const effect = { ...LOAD, atomic: true, waiters: true };
  // While all others wait, somebody has to go on.
  if (dice.percent(30) || waiting.length === run.agents - 1) run.call(agent, "wait", place, effect);
  else {
    run.add(agent, "wait", place, effect);
    waiting.push({ agent, place, isWoken: false });
  }
}

/** @param {Run} run @param {Range} place @param {number} most how many it wakes at most */
function wake({ waiting }, { block, byte }, most) {
  const there = waiting.filter(({ place, isWoken }) => place.block === block && place.byte === byte && !isWoken);
  for (const each of there.slice(0, most)) each.isWoken = true;
}

/**
 * A wait that was woken returns, or its time is up at some time.
 * @param {Run} run
 * @param {Wait} wait
 */
function leaveAtLast(run, wait) {
  if (!wait.isWoken && run.dice.percent(70)) return;
  run.waiting = run.waiting.filter((each) => each !== wait);
  run.call(wait.agent, wait.isWoken ? "leave" : "time-up", wait.place, { ...NOTHING, waiters: true });
}
