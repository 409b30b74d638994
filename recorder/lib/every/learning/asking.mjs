// Answers what an agent asks for while its function is called alone: by its history, as far as that goes. What it asks
// for next is handed on, and then it is broken off, or gets a further answer.

import { answerOfRead, bytesOfRead } from "../search/raw-elements.mjs";
import { DOES, DONE, TIMED_OUT } from "../search/nodes.mjs";
import { AGAIN, askedOf } from "../../../script/choices.mjs";
import { NO_CHOICE } from "../../agent/choosing.mjs";
import { OwnClock } from "../../agent/own-clock.mjs";
import { CantLearn, askedAccess, askedBegin, askedCall, askedChoice, askedOutcome, returned } from "./asked-nodes.mjs";
import { hadOtherNext } from "./iterators.mjs";
import { LeftPromises } from "./left-promises.mjs";
import { PART } from "./learning-progress.mjs";

/** @typedef {import("../search/nodes.mjs").Node} Node */
/** @typedef {import("../search/nodes.mjs").Answer} Answer */
/** @typedef {import("./asked-nodes.mjs").AskedNode} AskedNode */

/**
 * One call of an agent's function.
 * @typedef {object} AgentAnswers
 * @property {(asked: AskedNode) => Answer | undefined} answer what the agent is answered; undefined: it is broken off
 */

// These are watched when the agents' code is there.
const { DataView: EngineView, Error: EngineError, Uint8Array: EngineBytes } = globalThis;

/** What breaks an agent off. */
const BROKEN = Object.freeze({ isBrokenOff: true });

/**
 * Another time at which a clock may begin: later than many long times, in another year, month, day of the week and
 * hour, and below 0 as a number of 32 bits.
 */
export const OTHER_START = 37_127_117_789;

/** So often an agent may catch that. */
const MOST_CAUGHT = 10_000;

const PUTS = "--all can't learn what the agents do: one gives the object of a buffer a property or another prototype";
const GOES_ON = "it goes on later, by a promise";
const LEAVES_REJECTED = "it leaves a rejected promise, which nobody handles";
const CALLS_WHEN_SHOWN = "what it throws uses shared memory again when it is put into words";
const REPLACES_NEXT = "it has replaced the `next` of all iterators of arrays";
const { prototype: ofBuffers } = SharedArrayBuffer;

/** @param {string} why @param {string} line @returns {string} why agents are refused */
export const cantText = (why, line) => `--all can't learn what the agents do: ${why}, at ${line}`;

/**
 * `some` of arrays is the agents' own here.
 * @template Item
 * @param {Item[]} list
 * @param {(item: Item) => boolean} has
 */
function isAny(list, has) {
  for (const item of list) if (has(item)) return true;
  return false;
}

/** @param {object} buffer @returns {boolean} whether an agent keeps something in its object, from run to run */
const hasMore = (buffer) =>
  Reflect.ownKeys(buffer).length > 0 || Reflect.getPrototypeOf(buffer) !== ofBuffers || !Reflect.isExtensible(buffer);

export class Asker {
  /** Whether the agent has made a call of Atomics since it began the operation that it makes. */
  hasActed = false;

  /** @type {CantLearn | undefined} why the agent can't be learned */
  refused;

  /** Which agent runs now: an agent that uses it looks at its number. */
  agentNumber = () => 0;

  constructor() {
    /** @type {number[]} of each buffer where it begins in the bytes of all */
    this.bases = [];
    /** @type {SharedArrayBuffer[]} what stands for the agents' buffers: their bytes are only scratch */
    this.buffers = [];
    /** @type {DataView[]} */
    this.views = [];
    /** @type {Uint8Array[]} */
    this.bytes = [];
    /** @type {AgentAnswers | undefined} */
    this.run = undefined;
    this.isBroken = false;
    this.caught = 0;
    /** @type {{ block: number, from: number, to: number, line?: string } | undefined} a write that is being made */
    this.writing = undefined;
    /** Whether the lines of writes are noted: they take time, and writes are asked for after they were made. */
    this.notesLines = false;
    /** @type {string | undefined} where the write is that is asked for */
    this.askedAt = undefined;
    /** @type {(part: number) => void} is called before a part of the agents' code is, and behind it with none */
    this.onCall = () => {};
    /** Whether no wait ends by itself, and no time passes. */
    this.isEndless = false;
    /** The time of the agent that runs now. */
    this.clock = new OwnClock(false);
    /** At which time it begins. */
    this.start = 0;
    /** @type {number | undefined} which of its looks is to show something else, to find what keeps it */
    this.shiftedLook = undefined;
    /** How often the agent has looked at a clock, or made a draw that is never equal to others. */
    this.looks = 0;
    /** @type {string | undefined} why what the agent makes of a choice can't be shown */
    this.unshown = undefined;
    /** @type {() => string} where the agent that runs now is */
    this.lineHere = () => "a place that isn't known";
    const isRunning = () => this.run !== undefined && !this.isBroken;
    this.promises = new LeftPromises(isRunning, () => this.#stop(GOES_ON, this.lineHere()));
  }

  /** @param {number[]} lengths of the buffers @param {number[]} bases */
  begin(lengths, bases) {
    this.bases = bases;
    this.views = lengths.map((length) => new EngineView(new SharedArrayBuffer(length)));
    this.buffers = this.views.map(({ buffer }) => /** @type {any} */ (buffer));
    this.bytes = this.buffers.map((buffer) => new EngineBytes(buffer));
  }

  /**
   * Calls a part of the agents' code, which may never come back.
   * @template Result
   * @param {number} part
   * @param {() => Result} body
   * @returns {Result}
   */
  watched(part, body) {
    this.onCall(part);
    try {
      return body();
    } finally {
      this.onCall(PART.NONE);
      // Whether it was caught or not.
      if (this.refused !== undefined) throw this.refused;
    }
  }

  /**
   * Calls a function.
   * @param {AgentAnswers} run
   * @param {() => unknown} body
   * @returns {{ isBroken: boolean, result?: unknown, thrown?: unknown, hasThrown: boolean }}
   * @throws {CantLearn}
   */
  call(run, body) {
    this.isBroken = false;
    this.caught = 0;
    this.writing = undefined;
    this.clock.begin(this.start);
    this.looks = 0;
    this.unshown = undefined;
    this.promises.begin();
    this.run = run;
    try {
      const result = body();
      if (!this.isBroken) this.#endWrite();
      if (!this.isBroken && this.promises.hasRejected()) this.#stop(LEAVES_REJECTED, "its end");
      return { isBroken: this.isBroken, result, hasThrown: false };
    } catch (thrown) {
      if (!this.isBroken) this.#afterThrow();
      return { isBroken: this.isBroken, thrown, hasThrown: true };
    } finally {
      this.run = undefined;
      if (hadOtherNext()) this.refused ??= new CantLearn(cantText(REPLACES_NEXT, "its end"), true);
      if (isAny(this.buffers, hasMore)) this.refused ??= new CantLearn(PUTS, true);
      if (this.refused !== undefined) throw this.refused;
    }
  }

  /**
   * Puts into words what an agent has thrown, which may run its code.
   * @param {() => string} describe
   * @returns {string}
   * @throws {CantLearn} if it makes a call then
   */
  describing(describe) {
    this.run = { answer: () => this.refuse(CALLS_WHEN_SHOWN) };
    try {
      return describe();
    } finally {
      this.run = undefined;
      if (this.writing !== undefined) this.#stop(CALLS_WHEN_SHOWN, "its end");
      if (this.refused !== undefined) throw this.refused;
    }
  }

  /** A write that was being made when the agent threw was made. */
  #afterThrow() {
    try {
      this.#endWrite();
    } catch (thrown) {
      if (thrown !== BROKEN) throw thrown;
    }
  }

  /** @param {string} why @param {string} [line] where, if it isn't where the agent is @returns {never} */
  refuse(why, line = this.lineHere()) {
    this.#stop(why, line);
    return this.#breakOff();
  }

  /** @param {string} why the agent is refused: nothing that it still does counts @param {string} line */
  #stop(why, line) {
    this.refused ??= new CantLearn(cantText(why, line), true);
    this.isBroken = true;
  }

  /** @returns {never} */
  #breakOff() {
    this.isBroken = true;
    throw BROKEN;
  }

  /** Goes on only if the agent wasn't broken off before. */
  #enter() {
    if (hadOtherNext()) this.refuse(REPLACES_NEXT);
    if (!this.isBroken) return;
    this.caught += 1;
    if (this.caught > MOST_CAUGHT) throw this.refused ??= new CantLearn("it catches everything, and goes on for ever");
    throw BROKEN;
  }

  /**
   * @param {AskedNode} asked
   * @param {string} [line] where it is, if the agent isn't there any more
   * @returns {Answer}
   */
  #ask(asked, line) {
    this.askedAt = line;
    const answer = /** @type {AgentAnswers} */ (this.run).answer(asked);
    return answer ?? this.#breakOff();
  }

  /** A write is noted before it is made. What it has written is known when the agent asks for something else. */
  #endWrite() {
    if (this.writing === undefined) return;
    const { block, from, to, line } = this.writing;
    this.writing = undefined;
    this.#ask(askedAccess(block, from, to - from, this.bases[block], this.bytes[block].slice(from, to)), line);
  }

  /**
   * Makes a call of Atomics.
   * @param {import("../../memory/records.mjs").Call} call
   * @param {object} view
   * @returns {unknown}
   */
  make(call, view) {
    this.#enter();
    this.#endWrite();
    const { asked, thrown } = askedCall(call, view, this.bases[call.block]);
    this.hasActed = true;
    const isOver = this.isEndless && asked.does === DOES.WAIT && (asked.milliseconds ?? Infinity) <= 0;
    if (isOver) this.refuse("it waits for 0 ms, which ends by itself even with --timeouts never");
    const answer = this.#ask(asked);
    if (thrown !== undefined) throw thrown;
    if (answer === "TypeError") throw new TypeError("Atomics.wait cannot be called in this context");
    if (asked.does === DOES.WAIT && answer === TIMED_OUT) this.clock.timeOut(asked.milliseconds ?? 0);
    return returned(call, view, answer, this.views[call.block]);
  }

  /**
   * Makes a choice.
   * @param {number} asked as `askedOf` has it, or `AGAIN`
   * @param {string} [what] is made of the number
   * @returns {number} what is chosen
   */
  choose(asked, what) {
    if (this.run === undefined) throw new EngineError(NO_CHOICE);
    this.#enter();
    this.#endWrite();
    if (asked === AGAIN) this.clock.round();
    return /** @type {number} */ (this.#ask(askedChoice(asked, what)));
  }

  /**
   * An agent begins an operation of an object.
   * @param {number} call which one
   */
  begins(call) {
    this.#enter();
    this.#endWrite();
    this.hasActed = false;
    this.#ask(askedBegin(call));
  }

  /**
   * An agent's operation of an object ends.
   * @param {string} outcome
   */
  ends(outcome) {
    this.#enter();
    this.#endWrite();
    this.#ask(askedOutcome(outcome, !this.hasActed));
  }

  /**
   * A look at a clock.
   * @param {boolean} isPlain whether what the clock returns goes by the time alone
   * @returns {number} what time it is for the agent
   */
  look(isPlain) {
    const { clock, isEndless } = this;
    this.unshown = isPlain ? undefined : "what is made of a look at a clock";
    const passed = this.choose(askedOf(clock.isLasting ? "lasting time" : "time", isEndless ? 1 : 2));
    this.unshown = undefined;
    this.looks += 1;
    return clock.look(passed) + this.#shift();
  }

  /** @param {string} what is made of it @returns {number} a number that no other draw of a run has */
  draw(what) {
    const { clock } = this;
    this.choose(askedOf(clock.isLasting ? "lasting unique" : "unique", 1), what);
    this.looks += 1;
    return clock.draw(this.agentNumber()) + this.#shift();
  }

  /** @returns {number} by how much a look shows something else than it should */
  #shift() {
    return this.shiftedLook === this.looks ? OTHER_START : 0;
  }

  /**
   * An ordinary access is about to be made.
   * @param {{ block: number, kind: number }} place
   * @param {number} from
   * @param {number} to
   * @param {boolean} writes
   */
  seen({ block, kind }, from, to, writes) {
    this.#enter();
    this.#endWrite();
    if (from >= to) return;
    if (writes) {
      this.writing = { block, from, to, line: this.notesLines ? this.lineHere() : undefined };
      return;
    }
    // What the bytes are as an element goes by the kind of the array, which nothing else may keep any more.
    const answer = this.#ask({ ...askedAccess(block, from, to - from, this.bases[block]), kind });
    this.bytes[block].set(bytesOfRead(/** @type {number | string} */ (answer), to - from), from);
  }
}

/**
 * What an ordinary access finds in some bytes, which it may change.
 * @param {AskedNode} asked
 * @param {Uint8Array} bytes of all blocks
 * @returns {Answer}
 */
export function accessed({ at, size, written }, bytes) {
  if (written === undefined) return answerOfRead(bytes, at, size);
  bytes.set(written, at);
  return DONE;
}
