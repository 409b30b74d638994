// Lists of events from a seed, in which agents touch the same few bytes in all ways. Not every list is one that a run
// could have: who judges races takes an event as it stands.

import { Dice } from "./scripts.mjs";

/** @typedef {import("./slow-judge.mjs").Event} Event */
/** @typedef {import("./slow-judge.mjs").Range} Range */
/** @typedef {Pick<Event, "does" | "read" | "write">} Access */
/** @typedef {Omit<Event, "agent" | "call" | "source">} Deed what an agent does, whichever it is */

const LOAD = { does: "load", read: true, write: false };
const STORE = { does: "store", read: false, write: true };
const ADD = { does: "add", read: true, write: true };
// One that finds another value than it expects writes nothing.
const FAILED_EXCHANGE = { does: "compareExchange", read: true, write: false };

const ATOMICS = [LOAD, STORE, ADD, FAILED_EXCHANGE];
const SECTIONS = ["wait", "notify", "leave"];
const SIZES = [1, 2, 4, 4, 4, 8];

/**
 * The events of a seed, each with a source of its own.
 * @param {number} seed
 * @returns {Event[]}
 */
export function randomEvents(seed) {
  const dice = new Dice(seed);
  const scene = someScene(dice);
  /** @type {Omit<Event, "call" | "source">[]} */
  const events = [];
  let agent = 0;
  while (events.length < scene.length) {
    const next = dice.percent(scene.staying) ? agent : dice.below(scene.agents);
    if (next !== agent && dice.percent(scene.handing)) events.push(...handOver(dice, agent, next));
    agent = next;
    events.push({ agent, ...someEvent(dice, scene) });
  }
  return numbered(events);
}

/**
 * How the events of one list are drawn: some lists have few ordinary accesses, and in some hardly anything races.
 * @param {Dice} dice
 */
function someScene(dice) {
  return {
    agents: 2 + dice.below(4),
    blocks: dice.list(1, 3, () => dice.of([8, 8, 16])),
    length: 5 + dice.below(54),
    sizes: dice.percent(50) ? SIZES : [dice.of(SIZES)],
    ordinary: dice.of([5, 20, 50, 80]),
    sections: dice.of([0, 10, 30, 60]),
    staying: dice.of([0, 50, 80]),
    handing: dice.of([0, 80, 90, 97, 100]),
  };
}

/**
 * Two events that order what one agent did before what the next will do.
 * @param {Dice} dice
 * @param {number} agent
 * @param {number} next
 */
function handOver(dice, agent, next) {
  const place = { block: 0, byte: dice.of([0, 4]), size: 4 };
  const [given, taken] = dice.percent(50)
    ? [atomic(STORE, place), atomic(dice.of([LOAD, ADD]), place)]
    : [section("notify", place), section(dice.of(["wait", "leave"]), place)];
  return [{ agent, ...given }, { agent: next, ...taken }];
}

/** @param {Dice} dice @param {ReturnType<typeof someScene>} scene @returns {Deed} */
function someEvent(dice, { blocks, sizes, ordinary, sections }) {
  const block = dice.below(blocks.length);
  if (dice.percent(ordinary)) return ordinaryAccess(dice, block, blocks[block]);
  if (dice.percent(sections)) {
    const size = dice.of([4, 4, 8]);
    return section(dice.of(SECTIONS), { block, byte: size === 8 ? 0 : dice.of([0, 4]), size });
  }
  const size = dice.of(sizes);
  return atomic(dice.of(ATOMICS), { block, byte: size * dice.below(blocks[block] / size), size });
}

/** @type {(access: Access, range: Range) => Deed} */
const atomic = (access, range) => ({ ...access, ...range, atomic: true, waiters: false });

/**
 * A wait reads its word as well; the others touch no bytes.
 * @type {(does: string, place: Range) => Deed}
 */
const section = (does, place) => ({ does, read: does === "wait", write: false, ...place, atomic: true, waiters: true });

/**
 * Any bytes that lie in a row, mostly few.
 * @param {Dice} dice
 * @param {number} block
 * @param {number} length of the block
 * @returns {Deed}
 */
function ordinaryAccess(dice, block, length) {
  const byte = dice.below(length);
  const size = 1 + dice.below(Math.min(length - byte, dice.percent(80) ? 4 : length));
  const write = dice.percent(50);
  return { does: write ? "write" : "read", read: !write, write, block, byte, size, atomic: false, waiters: false };
}

/**
 * Each event with its source, and with the number of its agent's calls before it.
 * @param {Omit<Event, "call" | "source">[]} events
 * @returns {Event[]}
 */
function numbered(events) {
  /** @type {Map<number, number>} */
  const calls = new Map();
  return events.map((event, index) => {
    const call = calls.get(event.agent) ?? 0;
    if (event.atomic) calls.set(event.agent, call + 1);
    return { ...event, source: index + 1, call };
  });
}
