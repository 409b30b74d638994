// A run whose memory is shown in windows: its log, calls, stores and bytes are about the blocks of the script in place
// of the program's buffers. All code that makes scripts and traces takes it as any other run.

import { KINDS, SCRIPT_KINDS, SIZES } from "../../../script/kinds.mjs";
import { HELD, MESSAGES } from "../../memory/blocks.mjs";
import { FLAG, NO_CALL } from "../../memory/log.mjs";
import { byteOf } from "../../memory/recorded-memory.mjs";
import { FIRST_MORE } from "../../memory/more-blocks.mjs";
import { Names } from "../../options/names.mjs";
import { windowNames } from "./window-names.mjs";
import { TouchedPages, Windows } from "./windows.mjs";

/** @typedef {import("../../memory/blocks.mjs").Blocks} Blocks */
/** @typedef {import("../../memory/log.mjs").LogEvent} LogEvent */
/** @typedef {import("../../memory/records.mjs").Call} Call */
/** @typedef {import("../../memory/stores.mjs").Store} Store */
/** @typedef {import("../../options/names.mjs").NamedView} NamedView */
/** @typedef {import("../script/transcript.mjs").TranscriptSource} TranscriptSource */
/** @typedef {import("./windows.mjs").Window} Window */

/** @typedef {Window & { name: string }} NamedWindow with the name of its buffer; empty: it isn't known */

/** @typedef {{ block: number, offset: number, length: number, index: number }} Placed a call's view and index there */

/**
 * @typedef {object} Written a run as its script and its trace have it
 * @property {TranscriptSource} run
 * @property {Pick<import("../../memory/stores.mjs").Stores, "list" | "isWhole" | "isLost">} stores
 * @property {string[]} bytes of each block at the end, in hexadecimal digits
 * @property {NamedWindow[]} [windows] if its blocks aren't the program's
 */

const UINT8 = KINDS.indexOf("Uint8");

/** @param {Call} call @returns {boolean} whether its view has its element */
const hasElement = ({ index, length }) => index >= 0 && index < length;

/** What a call does that doesn't throw. */
const EFFECTS = FLAG.READS | FLAG.WRITES | FLAG.WAITERS;

/**
 * A call that throws since its view has no such element.
 * @param {LogEvent} event
 * @param {TranscriptSource["records"]} records
 * @returns {Call | undefined} undefined: the event is something else
 */
function callOutside({ flags, method, agent, call }, records) {
  if (method === NO_CALL || (flags & EFFECTS) !== 0) return undefined;
  const made = records[agent].callAt(call);
  return hasElement(made) ? undefined : made;
}

/**
 * The windows that a run needs: what it touches. A call outside of its view needs the whole view, since it throws by
 * the view's length. What a buffer had in it before it was shared needs a first page: all is ordered with it.
 * @param {TranscriptSource} run whose blocks are the program's
 * @returns {Windows | undefined} undefined: no script has room for all
 */
export function windowsOf({ log, records, lengths }) {
  const touched = new TouchedPages(lengths);
  for (let event = 0; event < log.length; event += 1) {
    if (log.blockAt(event) === MESSAGES) continue;
    const outside = callOutside(log.at(event), records);
    if (outside === undefined) {
      const to = log.kindAt(event) === HELD ? 1 : log.toAt(event);
      touched.add(log.blockAt(event), log.fromAt(event), to);
    } else if (outside.length > 0) {
      touched.add(outside.block, outside.offset, outside.offset + outside.length * SIZES[outside.kind]);
    }
  }
  return Windows.packed(touched.stretches(), (buffer, from, to) => touched.cut(buffer, from, to));
}

/** Says where the views, calls and events of a run are in its windows. */
class Placing {
  /** @param {Windows} windows @param {TranscriptSource} run */
  constructor(windows, { records, lengths }) {
    this.windows = windows;
    this.records = records;
    this.lengths = windows.lengths(lengths[MESSAGES]);
  }

  /**
   * A call gets a view of a whole block, unless it throws by its view's length.
   * @param {Call} call
   * @returns {Placed}
   */
  call(call) {
    const { kind, block, offset, length, index } = call;
    if (block === MESSAGES) return { block, offset, length, index };
    if (hasElement(call)) {
      const place = this.windows.placeOf(block, byteOf(call));
      return { block: place.block, offset: 0, length: this.#whole(place.block, kind), index: place.byte / SIZES[kind] };
    }
    const place = length === 0 ? { block: 0, byte: 0 } : this.windows.placeOf(block, offset);
    return { block: place.block, offset: place.byte, length, index };
  }

  /** @param {LogEvent} event */
  event(event) {
    const { kind, block, from, to, offset, length } = event;
    if (block === MESSAGES) return { block, from, to, offset, length };
    const outside = callOutside(event, this.records);
    if (outside !== undefined) {
      const placed = this.call(outside);
      const first = placed.offset + outside.index * SIZES[kind];
      return { ...placed, from: first, to: first + SIZES[kind] };
    }
    const place = this.windows.placeOf(block, from);
    // A window has only a part of what its buffer had in it.
    const end = kind === HELD ? Math.min(to, this.windows.at(block, from)?.to ?? to) : to;
    return {
      block: place.block, from: place.byte, to: place.byte + end - from,
      offset: 0, length: this.#whole(place.block, kind),
    };
  }

  /** @param {number} block @param {number} kind @returns {number} how many elements the whole block has */
  #whole(block, kind) {
    return Math.floor(this.lengths[block] / (SIZES[kind] ?? 1));
  }
}

/** The calls of an agent, in windows. */
class PlacedRecords {
  /** @param {TranscriptSource["records"][number]} records @param {Placing} placing */
  constructor(records, placing) {
    this.records = records;
    this.placing = placing;
  }

  /** @param {number} position @returns {Call} */
  callAt(position) {
    const call = this.records.callAt(position);
    return { ...call, ...this.placing.call(call) };
  }

  /** @param {number} position */
  doneAt(position) {
    return this.records.doneAt(position);
  }

  /**
   * @returns {boolean} whether it has taken one: it hasn't, since the same call may be at another place in the next run
   */
  takeFingerprint() {
    return false;
  }
}

/**
 * The kinds of elements by which a run touches each window.
 * @param {TranscriptSource["log"]} log whose blocks are the program's
 * @param {Windows} windows
 * @returns {Map<Window, number[]>} in rising order
 */
function kindsIn(log, windows) {
  /** @type {Map<Window, Set<number>>} */
  const kinds = new Map(windows.list.map((window) => [window, new Set()]));
  for (let event = 0; event < log.length; event += 1) {
    // What is repeated is noted only if lines of code are.
    if (log.blockAt(event) === MESSAGES || (log.flagsAt(event) & FLAG.AGAIN) !== 0) continue;
    const window = windows.at(log.blockAt(event), log.fromAt(event));
    const kind = log.kindAt(event);
    if (window !== undefined && kind !== HELD) kinds.get(window)?.add(kind < SCRIPT_KINDS.length ? kind : UINT8);
  }
  return new Map([...kinds].map(([window, each]) => [window, [...each].sort((one, other) => one - other)]));
}

/**
 * @param {Windows} windows
 * @param {TranscriptSource} run whose blocks are the program's
 * @param {NamedView[]} names of the windows' views
 * @returns {TranscriptSource}
 */
function runIn(windows, run, names) {
  const { log, records } = run;
  const placing = new Placing(windows, run);
  return {
    ...run,
    log: log.moved((event) => placing.event(event)),
    records: records.map((each) => new PlacedRecords(each, placing)),
    lengths: placing.lengths,
    names: new Names(names),
  };
}

/**
 * What a window had in it when several threads could first reach its buffer, as stores by the thread that had filled
 * it.
 * @param {Window} window
 * @param {number} kind of the elements that are stored; what isn't a whole one is stored as bytes
 * @param {import("../../memory/more-blocks.mjs").BlockStart} start of its buffer
 * @returns {Store[]} none if all is zero
 */
function startOf({ from, to, block, byte }, kind, { bytes, agent, position }) {
  /** @type {Store[]} */
  const stores = [];
  const end = Math.min(to, bytes.length);
  for (let at = from; at < end;) {
    const own = at + SIZES[kind] <= end ? kind : UINT8;
    const written = bytes.slice(at, at + SIZES[own]);
    if (written.some((value) => value !== 0)) {
      stores.push({ position, agent, block, byte: byte + at - from, kind: own, bytes: written });
    }
    at += SIZES[own];
  }
  return stores;
}

/**
 * The stores of a run in its windows, with those that fill its buffers.
 * @param {Map<Window, number[]>} kinds of the elements by which each window is touched
 * @param {Windows} windows
 * @param {Written["stores"]} stores
 * @param {Blocks} blocks
 * @returns {Written["stores"]}
 */
function storesIn(kinds, windows, stores, { more }) {
  const later = [...kinds].filter(([{ buffer }]) => buffer >= FIRST_MORE);
  const starts = later.map(([window, [kind = UINT8]]) => ({ window, kind, start: more.start(window.buffer) }));
  return {
    isWhole: () => stores.isWhole(),
    isLost: () => stores.isLost() || starts.some(({ start }) => start === undefined),
    list: () => {
      const first = starts.flatMap(({ window, kind, start }) =>
        start === undefined ? [] : startOf(window, kind, start));
      // No script shows what a buffer had in it where no agent touches it.
      const touched = stores.list().filter(({ block, byte }) => windows.at(block, byte) !== undefined);
      const own = touched.map((store) => ({ ...store, ...windows.placeOf(store.block, store.byte) }));
      return [...first, ...own].sort((one, other) => one.position - other.position);
    },
  };
}

/** @param {Windows} windows @param {Blocks} blocks @returns {string[]} the bytes at the end, in hexadecimal digits */
function bytesIn(windows, { memory: { shadow }, lengths }) {
  const blocks = windows.lengths(lengths[MESSAGES]).map((length) => Buffer.alloc(length));
  for (const { buffer, from, to, block, byte } of windows.list) {
    blocks[block].set(shadow[buffer].subarray(from, to), byte);
  }
  return blocks.map((bytes) => bytes.toString("hex"));
}

/**
 * A run in its windows, as its script and its trace have it.
 * @param {Windows} windows
 * @param {Pick<Written, "run" | "stores">} made whose blocks are the program's
 * @param {Blocks} blocks
 * @param {string[]} called the names of these
 * @returns {Written & { windows: NamedWindow[] }}
 */
export function inWindows(windows, made, blocks, called) {
  const kinds = kindsIn(made.run.log, windows);
  const run = runIn(windows, made.run, windowNames(kinds, called));
  const stores = storesIn(kinds, windows, made.stores, blocks);
  return {
    // What its buffers had in them at first is shown as ordinary writes.
    run: { ...run, isOrdinary: run.isOrdinary || stores.list().length > 0 },
    stores,
    bytes: bytesIn(windows, blocks),
    windows: windows.list.map((window) => ({ ...window, name: called[window.buffer] ?? "" })),
  };
}
