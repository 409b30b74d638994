// What was done in a run, as a script and its report have it: views, the calls of each agent, and moves. Ordinary
// writes are stores among the calls. The calls that agents make are counted apart, since these stores are none of them.
// Ordinary reads aren't among the calls. So a view without an element says that the run has ordinary accesses, or may
// have some. A wait of Atomics.waitAsync is one of a helper, an agent of its own, to which its thread hands it over.

import { BEGINS, ENDS } from "../../../script/helpers.mjs";
import { KINDS, SCRIPT_CONSTRUCTORS, SIZES } from "../../../script/kinds.mjs";
import { answerText } from "../../../script/report.mjs";
import { JOIN, LEAVE, MAKE, MOVES, TIME_UP } from "../../board/journal.mjs";
import { READ } from "../../memory/log.mjs";
import { namedCallText, viewName } from "../../memory/spelling.mjs";
import { STORED } from "../../memory/stores.mjs";
import { NO_NAMES, nameText } from "../../options/names.mjs";
import { Helpers, isAsync } from "./wait-helpers.mjs";
import { KnownCalls } from "./known-calls.mjs";

/** @typedef {import("../../memory/records.mjs").Records} Records */
/** @typedef {import("../../memory/stores.mjs").Store} Store */
/** @typedef {import("../../../script/text.mjs").Done} Done */
/** @typedef {import("../../../script/text.mjs").Move} Move */
/** @typedef {import("../../../script/text.mjs").Transcript} Transcript */
/** @typedef {import("../../../script/text.mjs").SpelledView} SpelledView */

/**
 * @typedef {object} TranscriptSource what a transcript is made from
 * @property {import("../../memory/log.mjs").Log} log
 * @property {Pick<Records, "callAt" | "doneAt" | "takeFingerprint">[]} records of each agent
 * @property {number[]} lengths of the blocks
 * @property {boolean[]} canBlock of each agent
 * @property {import("../../options/names.mjs").Names} [names] of words and of whole arrays
 * @property {boolean} [isOrdinary] whether ordinary accesses were made, or may have been made unseen
 * @property {KnownCalls} [known] calls of other runs with the same names and lengths
 */

/** @typedef {import("../../memory/spelling.mjs").ViewRange} ViewRange of a view */

/** The view that says so in a script. */
export const UNSEEN = "ordinary_unseen";
const NO_ELEMENT = Object.freeze({ kind: KINDS.indexOf("Uint8"), block: 0, offset: 0, length: 0 });

/** @param {string} name @param {ViewRange} range @returns {SpelledView} */
function viewOf(name, { kind, block, offset, length }) {
  return { name, kind: KINDS[kind], block, offset, length };
}

// An element of each kind on the same bytes: what a store's bytes stand for. Nothing outlives a look.
const BYTES = new Uint8Array(Math.max(...SIZES));
const ELEMENTS = SCRIPT_CONSTRUCTORS.map((Kind) => new Kind(BYTES.buffer, 0, 1));

class Writer {
  /** @param {TranscriptSource} run @param {boolean[]} canBlock of each agent, also of the one of `init` */
  constructor({ lengths, names = NO_NAMES, known = new KnownCalls() }, canBlock) {
    this.lengths = lengths;
    this.canBlock = [...canBlock];
    this.helpers = new Helpers(canBlock.length);
    this.names = names;
    this.known = known;
    /** Makes a call that isn't known. */
    this.make = (/** @type {TranscriptSource["records"][number]} */ records, /** @type {number} */ position) =>
      this.#call(records, position);
    /** @type {Map<string, SpelledView>} */
    this.views = new Map();
    /** @type {Done[][]} */
    this.calls = [];
    /** @type {number[]} how many calls each agent has made itself */
    this.own = [];
    /** @type {Move[]} */
    this.moves = [];
    /** @type {Move[]} each agent's move that isn't the end of a time */
    this.plainMoves = [];
    // Not by `map`: its arrays are of another kind once the engine has optimized this, and then the engine has to
    // compile anew all code that takes them.
    for (let agent = 0; agent < canBlock.length; agent += 1) {
      this.calls.push([]);
      this.own.push(0);
      this.plainMoves.push({ agent, timeUp: false });
    }
    /** @type {Map<string, string[]>} the names of the views of stores, by whose they are: of each block's kinds */
    this.storeNames = new Map();
    // All names are there, so that a reader of the script knows them.
    for (const view of names.list) this.addView(viewOf(view.name, view));
  }

  /** @param {SpelledView} view */
  addView(view) {
    if (!this.views.has(view.name)) this.views.set(view.name, view);
  }

  /** @param {number} agent @param {number} count @param {boolean} timeUp whether the first is the end of a time */
  addMoves(agent, count, timeUp) {
    if (timeUp) this.moves.push({ agent, timeUp });
    for (let move = timeUp ? 1 : 0; move < count; move += 1) this.moves.push(this.plainMoves[agent]);
  }

  /**
   * Adds a store. Its view has the name by which the code wrote, and the kind that can be stored.
   * @param {Store} store
   * @param {string} whose what its view's name begins with
   */
  addStore({ agent, block, byte, kind, bytes }, whose) {
    const named = this.names.at(kind, block, byte);
    const name = named === undefined ? this.#storeName(whose, kind, block) : `${whose}_${named.view.name}`;
    if (named !== undefined) this.addView(viewOf(name, { ...named.view, kind: STORED[kind] }));
    BYTES.set(bytes);
    const [value] = ELEMENTS[STORED[kind]];
    const isBig = typeof value === "bigint";
    const index = named?.index ?? byte / SIZES[kind];
    const text = `["store", "${name}", ${index}, ${isBig ? `"${value}"` : value}]`;
    this.calls[agent].push({ text, joined: false, answer: answerText(value), isOwn: false });
    this.addMoves(agent, MOVES[MAKE], false);
  }

  /**
   * The name of a view that stores have, which the script gets with its first one.
   * @param {string} whose
   * @param {number} kind
   * @param {number} block
   */
  #storeName(whose, kind, block) {
    const known = this.storeNames.get(whose);
    const names = known ?? [];
    if (known === undefined) this.storeNames.set(whose, names);
    const number = block * KINDS.length + kind;
    if (names[number] === undefined) {
      const range = { kind, block, offset: 0, length: Math.floor(this.lengths[block] / SIZES[kind]) };
      names[number] = `${whose}_${viewName(this.lengths, range)}`;
      this.addView(viewOf(names[number], { ...range, kind: STORED[kind] }));
    }
    return names[number];
  }

  /**
   * A call as the texts have it.
   * @param {TranscriptSource["records"][number]} records
   * @param {number} position
   * @returns {import("./known-calls.mjs").KnownCall}
   */
  #call(records, position) {
    const call = records.callAt(position);
    const named = this.names.ofCall(call);
    const name = named?.view.name ?? viewName(this.lengths, call);
    const text = namedCallText(name, call, named?.index);
    const done = { text, ...records.doneAt(position), isOwn: true, name: named && nameText(named) };
    return named === undefined ? { done, view: viewOf(name, call) } : { done };
  }

  /**
   * @param {TranscriptSource["records"][number]} records
   * @param {number} agent
   * @returns {Done} the agent's next call
   */
  #next(records, agent) {
    const position = this.own[agent];
    const { done, view } = this.known.at(records, position, this.make);
    if (view !== undefined) this.addView(view);
    this.own[agent] += 1;
    return done;
  }

  /** @param {TranscriptSource["records"][number]} records @param {number} agent @param {number} event */
  addEvent(records, agent, event) {
    if (event !== LEAVE && event !== TIME_UP) this.calls[agent].push(this.#next(records, agent));
    this.addMoves(agent, MOVES[event], event === TIME_UP);
  }

  /**
   * Adds the begin of a wait in which nobody sleeps, or its end: its helper makes it.
   * @param {TranscriptSource["records"][number]} records
   * @param {number} owner the agent that has called waitAsync
   * @param {number} event
   * @param {number} call which of its calls it is
   */
  addAsync(records, owner, event, call) {
    const { helpers } = this;
    if (event === JOIN) {
      const helper = helpers.begin(owner, call);
      if (helper === this.calls.length) this.#addHelper(helper);
      const wait = this.#next(records, owner);
      const handing = helpers.handingOver(helper, BEGINS);
      this.#add(owner, { ...handing, isOwn: true, standsFor: wait });
      this.#add(helper, handing);
      this.calls[helper].push(wait);
      this.addMoves(helper, MOVES[event], false);
      return;
    }
    const helper = helpers.end(owner, call);
    this.addMoves(helper, MOVES[event], event === TIME_UP);
    const handing = helpers.handingOver(helper, ENDS);
    this.#add(helper, handing);
    this.#add(owner, handing);
  }

  /** @param {number} helper that makes its first wait */
  #addHelper(helper) {
    this.calls.push([]);
    this.canBlock.push(true);
    this.plainMoves.push({ agent: helper, timeUp: false });
    this.addView(viewOf(this.helpers.nameOf(helper), this.helpers.rangeOf(helper)));
  }

  /** @param {number} agent @param {Done} done a call that it makes at once */
  #add(agent, done) {
    this.calls[agent].push(done);
    this.addMoves(agent, MOVES[MAKE], false);
  }
}

/**
 * Reads what was done in a run that has ended.
 * @param {TranscriptSource} run
 * @param {Store[]} stores that stand for ordinary writes, in their order
 * @param {Store[]} [initial] those that fill the buffers at first, of an agent of their own
 * @returns {Transcript}
 */
export function transcriptOf(run, stores, initial = []) {
  const { log, records, lengths, canBlock, isOrdinary = false } = run;
  const writer = new Writer(run, initial.length === 0 ? canBlock : [...canBlock, true]);
  for (const store of initial) writer.addStore(store, "init");
  let next = 0;
  /** @param {number} position */
  const addStores = (position) => {
    for (; next < stores.length && stores[next].position <= position; next += 1) {
      writer.addStore(stores[next], "ordinary");
    }
  };
  for (let position = 0; position < log.length; position += 1) {
    const event = log.whatAt(position);
    if (event >= READ) continue;
    addStores(position);
    const agent = log.agentAt(position);
    if (isAsync(log, position)) writer.addAsync(records[agent], agent, event, log.callAt(position));
    else writer.addEvent(records[agent], agent, event);
  }
  addStores(Infinity);
  if (isOrdinary) writer.addView(viewOf(UNSEEN, NO_ELEMENT));
  const { views, calls, moves, canBlock: all } = writer;
  return { lengths, canBlock: all, views: [...views.values()], calls, moves };
}

/**
 * The calls that an agent made itself.
 * @param {Transcript} transcript
 * @param {number} agent
 * @returns {(Done & { inScript: number })[]} each with its number in the script
 */
export function ownCalls(transcript, agent) {
  const calls = transcript.calls[agent].map((call, inScript) => ({ ...call, ...call.standsFor, inScript }));
  return calls.filter((call) => call.isOwn);
}
