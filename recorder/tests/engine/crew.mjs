// Workers, each of which makes one agent's calls. They are kept between scripts, since starting one takes 30 ms.

import { setImmediate as turn, setTimeout as sleep } from "node:timers/promises";
import { Worker } from "node:worker_threads";
import { isAsleep, ownStateFile } from "./asleep.mjs";
import { STAGE } from "./stage.mjs";

/** The engine did what no engine may, or a worker died. */
export class EngineFault extends Error {}

const WORKER = new URL("./worker.mjs", import.meta.url);

// How often a call is looked at, 1 ms apart, before it stands in the engine's line. A thread must be asleep each time:
// once may be too few, since it may sleep for a moment before it gets there. Where no thread's state can be read, time
// alone has to do.
const LOOKS = ownStateFile() === null ? 50 : 3;

/** How long a wait takes to join the engine's line, in milliseconds. */
export const JOIN_TIME = LOOKS * 1.5 + 4;

/** How long anything that must happen is awaited, in milliseconds. */
export const PATIENCE = 20_000;

/** @typedef {import("./script.mjs").Operand} Operand */
/** @typedef {{ answer: Operand | string, threw?: undefined }} Answered */
/** @typedef {{ threw: string, message: string, answer?: undefined }} Threw an error, by its name */
/** @typedef {Answered | Threw} Answer what a call came to */

/**
 * Turns of the event loop until a condition holds, or until the time is over.
 * @param {() => boolean} holds
 * @param {number} time in milliseconds
 * @returns {Promise<boolean>} whether it holds
 */
export async function until(holds, time = PATIENCE) {
  const end = performance.now() + time;
  for (let turns = 0; !holds(); turns += 1) {
    if (performance.now() >= end) return false;
    // It mostly holds after some turns; where it takes longer nothing should spin.
    await (turns < 50 ? turn() : sleep(1));
  }
  return true;
}

/** One worker. */
export class Hand {
  #stage = new Int32Array(new SharedArrayBuffer(4));
  // Workers print nothing; were their outputs joined to the program's, each would listen to its errors.
  #worker = new Worker(WORKER, { workerData: { stage: this.#stage }, stdout: true, stderr: true });
  /** @type {string | null} where the state of its thread can be read */
  #stateFile = null;
  /** @type {Answer | null} */
  #answer = null;
  /** @type {Error | null} why the worker is no more */
  #death = null;
  /** Resumes the caller that awaits a message of the worker. */
  #goOn = () => {};
  isBusy = false;

  constructor() {
    this.#worker.unref();
    this.#worker.on("message", (message) => {
      if ("stateFile" in message) {
        this.#stateFile = message.stateFile;
      } else {
        this.#answer = message;
        this.isBusy = false;
        this.#goOn();
      }
    });
    this.#worker.on("error", (error) => this.#die(error));
    this.#worker.on("exit", (status) => this.#die(new Error(`it ended with status ${status}`)));
  }

  /** @param {Error} error */
  #die(error) {
    this.#death ??= error;
    this.#goOn();
  }

  /**
   * Gives the worker the typed arrays of its next calls.
   * @param {ArrayBufferView[]} views
   */
  take(views) {
    this.#worker.postMessage({ views });
  }

  /**
   * Sends a call. Its answer comes later, and takes the place of the one before.
   * @param {string} method of Atomics
   * @param {number} view the position of its typed array
   * @param {Operand[]} operands its index, and what comes after
   */
  send(method, view, operands) {
    this.#answer = null;
    this.isBusy = true;
    Atomics.store(this.#stage, 0, STAGE.sent);
    this.#worker.postMessage({ method, view, operands });
  }

  /**
   * The answer of the last call that was sent; null as long as there is none.
   * @returns {Answer | null}
   */
  get answer() {
    if (this.#death) throw new EngineFault(`a worker died: ${this.#death.message}`);
    return this.#answer;
  }

  /**
   * Awaits the answer.
   * @param {number} [time] the milliseconds that it must come within
   * @returns {Promise<Answer>}
   */
  async answered(time = PATIENCE) {
    if (this.answer === null) await this.#message(time);
    if (this.answer === null) throw new EngineFault("a call that has to answer doesn't");
    return this.answer;
  }

  /**
   * Awaits that a wait has answered, or that its agent stands in the engine's line.
   * @param {number} care how many times longer than usual it is looked at
   * @returns {Promise<Answer | null>} null where it stands in the line
   */
  async settled(care) {
    const end = performance.now() + PATIENCE;
    for (let looks = 0; looks < LOOKS * care && this.answer === null; ) {
      if (performance.now() >= end) throw new EngineFault("a wait neither returns nor sleeps");
      await this.#message(1);
      looks = this.#isAtRest() ? looks + 1 : 0;
    }
    return this.answer;
  }

  /**
   * Awaits a message of the worker, or the end of a time.
   * @param {number} time in milliseconds
   * @returns {Promise<void>}
   */
  #message(time) {
    return new Promise((resolve) => {
      const timer = setTimeout(resolve, time);
      this.#goOn = () => {
        clearTimeout(timer);
        resolve();
      };
    });
  }

  #isAtRest() {
    const isCalled = Atomics.load(this.#stage, 0) === STAGE.called;
    return isCalled && (this.#stateFile === null || isAsleep(this.#stateFile));
  }

  end() {
    return this.#worker.terminate();
  }
}

/** Workers that are lent to scripts. */
export class Crew {
  /** @type {Set<Hand>} */
  #all = new Set();
  /** @type {Hand[]} */
  #free = [];

  /**
   * As many workers as are asked for, with typed arrays to make their calls on.
   * @param {number} count
   * @param {ArrayBufferView[]} views
   * @returns {Hand[]}
   */
  lend(count, views) {
    const hands = Array.from({ length: count }, () => this.#free.pop() ?? this.#start());
    hands.forEach((hand) => hand.take(views));
    return hands;
  }

  #start() {
    const hand = new Hand();
    this.#all.add(hand);
    return hand;
  }

  /**
   * Takes back workers. One that is still in a call serves nobody any more.
   * @param {Hand[]} hands
   */
  async takeBack(hands) {
    this.#free.push(...hands.filter((hand) => !hand.isBusy));
    await Promise.all(hands.filter((hand) => hand.isBusy).map((hand) => this.#dismiss(hand)));
  }

  /** @param {Hand} hand */
  #dismiss(hand) {
    this.#all.delete(hand);
    return hand.end();
  }

  /** Ends all workers, whatever they do. */
  async end() {
    await Promise.all([...this.#all].map((hand) => this.#dismiss(hand)));
    this.#free = [];
  }
}
