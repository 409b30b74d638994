// The log of a run: every access and every act on a place's waiters, in the order in which they were made, in shared
// memory. Scripts and traces are made from it, and races are judged by it.

const { ArrayBuffer, Int32Array, SharedArrayBuffer, Uint8Array } = globalThis;

/** The first four are what the board counts (`journal.mjs`); then come ordinary reads and writes. */
export const READ = 4;
export const WRITE = 5;

/**
 * What an event is. `AGAIN`: an ordinary access that its agent has made before, since its last call. `ONLY_BY_TIME`:
 * the end of a wait by its time: nothing else could move, though its word had changed or no other agent was left.
 * `ASYNC`: a wait of Atomics.waitAsync joins the line, or it ends: nobody sleeps in it.
 */
export const FLAG = Object.freeze({
  READS: 1, WRITES: 2, ATOMIC: 4, WAITERS: 8, AGAIN: 16, ONLY_BY_TIME: 32, ASYNC: 64,
});

/** If there is no call of Atomics. */
export const NO_CALL = 15;

// How many events there are room for; the last ones are kept for calls of Atomics, which a script is made of.
const ROOM = 2 ** 20;
const FOR_CALLS = 65_536;

/** How many words an event has. */
export const EVENT_WORDS = 8;

const EACH = EVENT_WORDS;
const HEAD = 0;
const NUMBER = 1;
const BLOCK = 2;
const FROM = 3;
const TO = 4;
const SOURCE = 5;
const OFFSET = 6;
const LENGTH = 7;

// Behind all events there is room for what each has read: the bytes of an element.
const VALUE_BYTES = 8;
const ROOM_BYTES = EACH * 4 + VALUE_BYTES;

const NO_MEMORY = new ArrayBuffer(0);

// The head: what was done, by whom, on a view of which kind, by which call, and the flags.
const AGENT_BITS = 4;
const KIND_BITS = 8;
const CALL_BITS = 12;
const FLAG_BITS = 16;
const WHAT = 15;
const BEFORE_CALL = (1 << CALL_BITS) - 1;

/**
 * @typedef {object} LogEvent
 * @property {number} what one of the board's events, or `READ` or `WRITE`
 * @property {number} agent
 * @property {number} kind of the view; see `Place` in the code that watches ordinary accesses
 * @property {number} method the number of the call's function in `CALLS`, or `NO_CALL`
 * @property {number} flags
 * @property {number} call which of the agent's calls it is; of an ordinary access, how many began before
 * @property {number} block
 * @property {number} from its first byte in the block
 * @property {number} to the byte behind its last one
 * @property {number} source a number of the agent's source positions; 0 if none was taken
 * @property {number} offset of the view, in bytes
 * @property {number} length of the view, in elements
 */

export class Log {
  /** @param {number} [room] for how many events @returns {SharedArrayBuffer} */
  static memory(room = ROOM) {
    return new SharedArrayBuffer(room * ROOM_BYTES);
  }

  /**
   * @param {ArrayBufferLike} memory
   * @param {Int32Array} words in which one is how many events there are
   * @param {number} count the position of that word
   */
  constructor(memory, words, count) {
    this.most = memory.byteLength / ROOM_BYTES;
    this.events = new Int32Array(memory, 0, this.most * EACH);
    this.values = new Uint8Array(memory, this.most * EACH * 4);
    this.words = words;
    this.count = count;
  }

  /** @returns {number} how many events there are */
  get length() {
    return this.words[this.count];
  }

  /** Forgets all. */
  begin() {
    this.words[this.count] = 0;
  }

  /** @returns {boolean} whether there is room for another ordinary access */
  hasRoom() {
    return this.words[this.count] < this.most - FOR_CALLS;
  }

  /** @returns {boolean} whether an ordinary access is among the events */
  hasOrdinary() {
    for (let event = 0; event < this.length; event += 1) {
      if (this.whatAt(event) >= READ) return true;
    }
    return false;
  }

  /**
   * Appends an event.
   * @param {number} what
   * @param {number} agent
   * @param {number} method
   * @param {number} flags
   * @param {number} call
   * @param {number} block
   * @param {number} from
   * @param {number} to
   * @param {{ kind: number, offset: number, length: number }} view
   * @param {number} source
   */
  append(what, agent, method, flags, call, block, from, to, view, source) {
    const { events, words, count } = this;
    const at = words[count] * EACH;
    events[at + HEAD] = what | (agent << AGENT_BITS) | (view.kind << KIND_BITS) | (method << CALL_BITS)
      | (flags << FLAG_BITS);
    events[at + NUMBER] = call;
    events[at + BLOCK] = block;
    events[at + FROM] = from;
    events[at + TO] = to;
    events[at + SOURCE] = source;
    events[at + OFFSET] = view.offset;
    events[at + LENGTH] = view.length;
    words[count] += 1;
  }

  /**
   * Extends the agent's last access by the same view, if the new bytes follow it, so that no new event is needed. If
   * the agent has read and written in turn, that is the last but one. Nobody else has moved since, so nothing is
   * ordered otherwise.
   * @param {number} what
   * @param {number} agent
   * @param {number} block
   * @param {number} from
   * @param {number} to
   * @param {{ kind: number, offset: number, length: number }} view
   * @param {number} since the first event that may be changed, from which on there are ordinary accesses of the agent
   * @returns {boolean} whether it was done
   */
  extend(what, agent, block, from, to, view, since) {
    const { events, words, count } = this;
    const head = what | (agent << AGENT_BITS) | (view.kind << KIND_BITS);
    let event = words[count] - 1;
    if (event > since && (events[event * EACH + HEAD] & WHAT) !== what) event -= 1;
    if (event < since) return false;
    const at = event * EACH;
    if (events[at + TO] !== from || (events[at + HEAD] & BEFORE_CALL) !== head) return false;
    if (events[at + BLOCK] !== block || events[at + OFFSET] !== view.offset) return false;
    if (events[at + LENGTH] !== view.length || events[at + SOURCE] !== 0) return false;
    events[at + TO] = to;
    return true;
  }

  /**
   * Writes down what the last event has read.
   * @param {Uint8Array} bytes of its block
   * @param {number} from
   * @param {number} to the byte behind the last one; no value is longer than 8 bytes
   */
  addValue(bytes, from, to) {
    const at = (this.length - 1) * VALUE_BYTES;
    for (let byte = from; byte < to; byte += 1) this.values[at + byte - from] = bytes[byte];
  }

  // About one event.

  /** @param {number} event @returns {Uint8Array} the bytes that it has read, if they were written down */
  valueAt(event) {
    return this.values.subarray(event * VALUE_BYTES, (event + 1) * VALUE_BYTES);
  }

  /** @param {number} event */
  whatAt(event) {
    return this.events[event * EACH + HEAD] & WHAT;
  }

  /** @param {number} event */
  agentAt(event) {
    return (this.events[event * EACH + HEAD] >> AGENT_BITS) & 15;
  }

  /** @param {number} event */
  kindAt(event) {
    return (this.events[event * EACH + HEAD] >> KIND_BITS) & 15;
  }

  /** @param {number} event @returns {number} the number of the call's function in `CALLS`, or `NO_CALL` */
  methodAt(event) {
    return (this.events[event * EACH + HEAD] >> CALL_BITS) & 15;
  }

  /** @param {number} event */
  flagsAt(event) {
    return this.events[event * EACH + HEAD] >> FLAG_BITS;
  }

  /** @param {number} event */
  callAt(event) {
    return this.events[event * EACH + NUMBER];
  }

  /** @param {number} event */
  blockAt(event) {
    return this.events[event * EACH + BLOCK];
  }

  /** @param {number} event */
  fromAt(event) {
    return this.events[event * EACH + FROM];
  }

  /** @param {number} event */
  toAt(event) {
    return this.events[event * EACH + TO];
  }

  /** @param {number} event */
  sourceAt(event) {
    return this.events[event * EACH + SOURCE];
  }

  /** @param {number} event its position @returns {LogEvent} */
  at(event) {
    const { events } = this;
    const at = event * EACH;
    const head = events[at + HEAD];
    return {
      what: head & WHAT,
      agent: (head >> AGENT_BITS) & 15,
      kind: (head >> KIND_BITS) & 15,
      method: (head >> CALL_BITS) & 15,
      flags: head >> FLAG_BITS,
      call: events[at + NUMBER],
      block: events[at + BLOCK],
      from: events[at + FROM],
      to: events[at + TO],
      source: events[at + SOURCE],
      offset: events[at + OFFSET],
      length: events[at + LENGTH],
    };
  }

  /** @returns {Int32Array} all events, in memory of their own, which the next run leaves as it is */
  taken() {
    return this.events.slice(0, this.length * EACH);
  }

  /** @param {Int32Array} into which as many events are copied as it has room for */
  copyTo(into) {
    into.set(this.events.subarray(0, into.length));
  }

  /**
   * A log of the same events on other bytes, in memory of its own.
   * @param {(event: LogEvent) => { block: number, from: number, to: number, offset: number, length: number }} placed
   * gives an event's block, its bytes there, and its view
   * @returns {Log}
   */
  moved(placed) {
    const log = Log.from(this.taken());
    log.values = this.values.slice(0, this.length * VALUE_BYTES);
    for (let event = 0; event < this.length; event += 1) {
      const { block, from, to, offset, length } = placed(this.at(event));
      const at = event * EACH;
      log.events[at + BLOCK] = block;
      log.events[at + FROM] = from;
      log.events[at + TO] = to;
      log.events[at + OFFSET] = offset;
      log.events[at + LENGTH] = length;
    }
    return log;
  }

  /** @param {Int32Array} events @returns {Log} a log of events that were taken from one, without what they read */
  static from(events) {
    const log = new Log(NO_MEMORY, Int32Array.of(events.length / EACH), 0);
    log.events = events;
    return log;
  }
}
