// The steps of a run, from the entries of its report and the events of its trace.

import { isStandIn } from "../schedule/report-entries.mjs";
import { helpersIn } from "../script/helpers.mjs";
import { storedBytes } from "../script/values.mjs";
import { labelOf, writtenView } from "../script/written.mjs";
import { changesBy, sizeOf } from "./elements.mjs";
import { endingText } from "./endings.mjs";
import { callText, changesText, entryText, handOverText, standingText, valueText } from "./words.mjs";

/** @typedef {import("../schedule/report-entries.mjs").ReportEntry} ReportEntry */
/** @typedef {import("./elements.mjs").Change} Change */
/** @typedef {import("./elements.mjs").Stored} Stored */
/** @typedef {import("./elements.mjs").Views} Views */
/** @typedef {import("./run-data.mjs").Event} Event */
/** @typedef {import("./run-data.mjs").RunData} RunData */
/** @typedef {import("./words.mjs").View} View */

/**
 * @typedef {object} Access
 * @property {number} block
 * @property {number} byte
 * @property {number} size
 * @property {boolean} writes
 * @property {View} [view] by which it is shown; undefined: its bytes go by their numbers
 */

/**
 * @typedef {object} Step
 * @property {"start" | "call" | "wait" | "leave" | "stuck" | "ordinary" | "store" | "task" | "end"} what
 * @property {number} [agent]
 * @property {number} [entry] its position in the report
 * @property {number} [event] its position in the trace
 * @property {string} text what is done, in short
 * @property {string} answer its result, in short
 * @property {string} sentence the fact
 * @property {number} place of the code, or -1
 * @property {Access[]} accesses
 * @property {Stored[]} stores
 * @property {Change[]} changes of elements, by the stores
 * @property {boolean} isSwitch whether another agent has made the step before
 * @property {ReportEntry} [fact]
 * @property {boolean} [isReworded] whether its sentence isn't the report's: a message, or a wait that is handed over
 */

/** What has the result of what the program has begun before. */
const RESULT = /^has (?:the|a) result of /;

/**
 * @param {Pick<Step, "place" | "text" | "what">} step
 * @param {string[]} places of the run's data
 * @returns {string} where it is, to be added to its sentence; of a result where that was begun; empty: it isn't known
 */
export function placeText({ place, text, what }, places) {
  if (place < 0) return "";
  return `, ${what === "task" && RESULT.test(text) ? "begun " : ""}at ${places[place]}`;
}

/** A message has a word of its own. */
const WORD_BYTES = 4;

export class Stepper {
  /** @param {RunData} data @param {Views} views */
  constructor(data, views) {
    this.data = data;
    this.views = views;
    /** @type {Step[]} */
    this.steps = [];
    /** @type {(number | undefined)[]} */
    this.waits = [];
    /** @type {Step[][]} the ordinary writes of each agent since its last call */
    this.pending = Array.from({ length: data.agents }, () => []);
    this.known = { views: views.byName, waits: this.waits };
    this.entries = data.entries.filter(({ agent }) => agent < data.agents);
    this.next = 0;
    /** @type {Set<number>} the messages of a program that were sent */
    this.sent = new Set();
    /** @type {Map<number, string>} what is in them */
    this.messages = new Map(data.messages ?? []);
  }

  /** @returns {Step[]} */
  all() {
    this.#start();
    const events = this.#isTraced() ? this.data.events : [];
    const tasks = this.#isTraced() ? this.data.tasks ?? [] : [];
    events.forEach((event, position) => {
      this.#tasks(tasks, position);
      this.#event(event, position);
    });
    this.#tasks(tasks, events.length);
    while (this.next < this.entries.length) this.#entry(-1, undefined);
    this.#end();
    const blocks = this.data.blocks.map((length) => new Uint8Array(length));
    this.steps.forEach((step, at) => {
      const before = this.steps[at - 1]?.agent;
      step.isSwitch = before !== undefined && step.agent !== undefined && step.agent !== before;
      this.#change(step, blocks);
    });
    return this.steps;
  }

  /**
   * Adds to a step what its stores change.
   * @param {Step} step
   * @param {Uint8Array[]} blocks as they are before it
   */
  #change(step, blocks) {
    const { stores, accesses: [access], what } = step;
    if (stores.length === 0) return;
    step.changes = changesBy(blocks, stores, (store) => this.views.cellsOf(store, access?.view));
    if (what === "ordinary" || what === "store") step.sentence += `: ${changesText(step.changes)}`;
  }

  /** Whether the calls of the trace are those of the report. */
  #isTraced() {
    const own = this.entries.filter((entry) => !isNoCall(entry));
    const calls = this.data.events.filter((event) => !isOrdinary(event));
    return own.length === calls.length && own.every(({ agent, what, does }, at) => {
      const isLeave = calls[at].does === "leave" || calls[at].does === "time-up";
      return agent === calls[at].agent && (what === "leave" ? isLeave : does[0] === calls[at].does);
    });
  }

  /** @param {Partial<Step> & { what: Step["what"] }} parts */
  #add(parts) {
    const plain = { text: "", answer: "", sentence: "", place: -1, accesses: [], changes: [], isSwitch: false };
    this.steps.push({ ...plain, stores: [], ...parts });
  }

  #start() {
    const first = this.data.entries.filter(({ agent }) => agent >= this.data.agents);
    const how = first.length === 0 ? "every byte is zero" : "the bytes are as `init` left them";
    this.#add({ what: "start", text: "the start", sentence: `The run begins: ${how}.`,
      stores: first.flatMap((entry) => this.#storesOf(entry)) });
  }

  #end() {
    const { detail, standings } = this.data;
    const ending = endingText(this.data.ending, detail);
    const helpers = helpersIn(this.data.views);
    const stands = standings.map(({ agent, standing }) => {
      const owner = helpers.get(agent);
      return `Agent ${agent}${owner === undefined ? "" : ` (waitAsync of agent ${owner})`} ${standingText(standing)}.`;
    });
    this.#add({ what: "end", text: `the end: ${ending}`, sentence: [`The run ends: ${ending}.`, ...stands].join(" ") });
  }

  /**
   * @param {import("./run-data.mjs").Task[]} tasks
   * @param {number} before how many events come before those that are added
   */
  #tasks(tasks, before) {
    for (const { before: own, agent, text, place } of tasks) {
      if (own === before) this.#add({ what: "task", agent, text, sentence: text, place });
    }
  }

  /** @param {Event} event @param {number} position */
  #event(event, position) {
    if (isOrdinary(event)) {
      this.#ordinary(event, position);
      return;
    }
    while (this.next < this.entries.length && isNoCall(this.entries[this.next])) this.#entry(-1, undefined);
    this.#entry(event.place, position);
  }

  /** @param {Event} event @param {number} position */
  #ordinary(event, position) {
    const { agent, block, byte, size, write: writes, place, array = -1, value } = event;
    const view = this.views.of(block, byte, size, array);
    const text = `${writes ? "writes" : "reads"} ${bytesText(event, view)}`;
    const answer = value === undefined ? "" : `= ${value}`;
    const sentence = `${text}${value === undefined ? "" : `, which is ${value}`}, without Atomics`;
    this.#add({ what: "ordinary", agent, event: position, text, answer, sentence, place,
      accesses: [{ block, byte, size, writes, view }] });
    if (writes) this.pending[agent].push(this.steps[this.steps.length - 1]);
  }

  /**
   * The next entry of the report becomes a step, or a part of one.
   * @param {number} place
   * @param {number | undefined} event
   */
  #entry(place, event) {
    const entry = this.entries[this.next];
    this.next += 1;
    if (entry.what !== "stuck" && isStandIn(entry.does)) {
      this.#store(entry);
      return;
    }
    const sentence = entryText(entry, this.known);
    if (entry.what === "stuck") this.#stuck(entry, sentence);
    else this.#call(entry, sentence, place, event);
  }

  /** @param {ReportEntry} entry */
  #store(entry) {
    const { agent, entry: number } = entry;
    const stores = this.#storesOf(entry);
    const { block, byte, size } = this.#accessOf(entry, true);
    const writes = this.pending[agent].filter(({ accesses: [access] }) =>
      access.block === block && access.byte < byte + size && byte < access.byte + access.size);
    const step = writes[writes.length - 1];
    if (step === undefined) {
      const view = writtenView(this.#viewOf(entry), this.views.byName);
      const text = `writes ${labelOf(view, byte)}`;
      this.#add({ what: "store", agent, entry: number, text, sentence: `${text}, without Atomics`, stores,
        accesses: [{ block, byte, size, writes: true, view }] });
      return;
    }
    step.entry ??= number;
    step.stores.push(...stores);
  }

  /** @param {ReportEntry} entry @param {string} sentence @param {number} place @param {number | undefined} event */
  #call(entry, sentence, place, event) {
    const { agent, what, entry: number, does, place: at } = entry;
    this.pending[agent] = [];
    if (what === "wait") this.waits[agent] = number;
    const [name] = does;
    const message = handOverText(entry) ?? this.#messageText(entry);
    // The place of a message isn't one of the program's.
    const touches = at !== undefined && what !== "leave" && message === undefined;
    const access = touches ? [this.#accessOf(entry, !["load", "wait", "notify"].includes(`${name}`))] : [];
    this.#add({
      what: what === "act" ? "call" : /** @type {"wait" | "leave"} */ (what),
      agent, entry: number, event, place, sentence: message ?? sentence, text: message ?? callText(does),
      answer: message === undefined ? answerText(entry) : "",
      accesses: access, stores: this.#storesOf(entry), fact: entry, isReworded: message !== undefined,
    });
  }

  /**
   * @param {ReportEntry} entry
   * @returns {string | undefined} that a program's message is sent or received, if one is
   */
  #messageText({ agent, does: [name], place }) {
    const { senders, blocks } = this.data;
    if (senders === undefined || name !== "notify" || place?.block !== blocks.length - 1) return undefined;
    const message = place.byte / WORD_BYTES;
    // A thread may send to itself.
    const isSent = senders[message] === agent && !this.sent.has(message);
    if (isSent) this.sent.add(message);
    const text = this.messages.get(message) ?? "";
    return `${isSent ? "sends" : "receives"} message ${message}${text === "" ? "" : `: ${text}`}`;
  }

  /** @param {ReportEntry} entry @param {string} sentence */
  #stuck(entry, sentence) {
    const { agent, entry: number, does } = entry;
    const text = does.length === 0 ? "no call" : callText(does);
    this.#add({ what: "stuck", agent, entry: number, sentence, text, answer: "can't move", fact: entry });
  }

  /** @param {ReportEntry} entry @returns {View} */
  #viewOf({ does: [, name] }) {
    return /** @type {View} */ (this.views.byName.get(`${name}`));
  }

  /** @param {ReportEntry} entry that has a place @param {boolean} writes @returns {Access} */
  #accessOf(entry, writes) {
    const { block, byte } = /** @type {import("../schedule/report-entries.mjs").Place} */ (entry.place);
    const view = this.#viewOf(entry);
    return { block, byte, size: sizeOf(view), writes, view };
  }

  /** @param {ReportEntry} entry @returns {Stored[]} */
  #storesOf(entry) {
    const { found = {}, place, what } = entry;
    if (what !== "act" || place === undefined || found.after === undefined || found.after === found.before) return [];
    const view = this.#viewOf(entry);
    const bytes = storedBytes(view.kind, found.after);
    return [{ ...place, bytes, view: writtenView(view, this.views.byName) }];
  }
}

/**
 * The bytes of an access: its elements, or their numbers.
 * @param {Event} event
 * @param {View | undefined} view
 */
function bytesText({ block, byte, size }, view) {
  if (view === undefined) {
    const which = size === 1 ? `byte ${byte}` : `bytes ${byte} to ${byte + size - 1}`;
    return `${which} of block ${block}`;
  }
  const last = byte + size - sizeOf(view);
  return last === byte ? labelOf(view, byte) : `${labelOf(view, byte)} to ${labelOf(view, last)}`;
}

/**
 * Whether an entry isn't about a call that its agent made: it stands for an ordinary write, or is stuck.
 * @param {ReportEntry} entry
 */
const isNoCall = ({ what, does }) => what === "stuck" || isStandIn(does);

/** @param {Event} event */
export const isOrdinary = ({ does }) => does === "read" || does === "write";

/** @param {ReportEntry} entry @returns {string} the result of a call, in short */
function answerText({ what, does: [name], answer, found = {} }) {
  if (what === "wait") return "waits";
  if (what === "leave") return answer === "ok" ? "goes on" : "its time is up";
  if (/Error$/.test(`${answer}`)) return `throws ${answer}`;
  if (name === "store") return "";
  if (name !== "notify") return `= ${valueText(answer)}`;
  return found.woken.length === 0 ? "wakes nobody" : `wakes ${found.woken.join(", ")}`;
}
