// How a program's thread ends: nothing keeps it alive, it exits, or it throws what nobody catches. The first thread's
// end is the run's. Any other thread reports its end to the thread that has started it.

import process from "node:process";
import { described } from "../../agent/described.mjs";
import { PHASE } from "../../memory/layout.mjs";
import { leaveContexts, serializeError } from "../node/internals.mjs";
import { doesOtherwise } from "../../processes/node-versions.mjs";
import { KIND } from "../ports/ports.mjs";

/** The exit code of a thread whose module is still being evaluated when nothing keeps it alive. */
const UNSETTLED = 13;

/** Why it has that. */
export const UNSETTLED_WHY = "has a top-level await that never settles";

/** That of a thread that throws what nobody catches. */
const THREW = 1;

/** That of the first thread if its listener of `uncaughtException` throws. */
const LISTENER_THREW = 7;

/**
 * @typedef {object} Leaving
 * @property {number} agent
 * @property {import("../../agent/player.mjs").Player} player
 * @property {import("../ports/ports.mjs").Ports} ports
 * @property {import("../moves/threads.mjs").Threads} threads
 * @property {() => string} here where the program's code is
 * @property {() => never} leave leaves all code of the program that runs now
 * @property {() => void} closeSockets makes others see that the thread's sockets are closed
 * @property {import("../../memory/thread-texts.mjs").ThreadTexts} threadTexts get how the thread has ended
 * @property {(text: string, place?: string) => void} note notes what the thread does
 * @property {() => string} printed what the thread has written to standard error last
 */

/** @typedef {"uncaughtException" | "unhandledRejection"} ErrorOrigin */

/** A place in a stack. */
const PLACE = /((?:file|data|blob):[^\s()]+:\d+:\d+)\)?$/m;

/** @type {any} node's, with members that it doesn't document */
const own = process;
/** @type {(name: string, ...given: unknown[]) => boolean} */
const emit = own.emit.bind(own);
/** @type {(name: string) => number} */
const listenersOf = own.listenerCount.bind(own);

export class Ends {
  /** Whether this thread's part in the run is over. */
  isOver = false;

  /** Whether the program's module of this thread is evaluated. */
  isEvaluated = false;

  /** @type {any} the port to the thread that has started this one */
  parentPort = undefined;

  /** Whether an error of this thread was sent there. */
  #hasReported = false;

  /** @type {string[]} the tests of `node:test` that have failed, in words: those that were cancelled come last */
  #failedTests = [];

  /** How many of them were cancelled. */
  #cancelled = 0;

  /** @param {Leaving} leaving */
  constructor(leaving) {
    this.leaving = leaving;
  }

  /** Takes the errors that nothing else handles. */
  guard() {
    // A rejection that nobody handles comes here too.
    process.on("uncaughtException", (thrown, origin) => {
      if (listenersOf("uncaughtException") === 1) this.#fail(thrown, origin);
    });
  }

  /** @param {unknown} thrown @param {ErrorOrigin} [origin] */
  uncaught(thrown, origin = "uncaughtException") {
    if (this.isOver) return;
    let isListenedTo = false;
    try {
      emit("uncaughtExceptionMonitor", thrown, origin);
      // This one's own guard is a listener too.
      isListenedTo = listenersOf("uncaughtException") > 1;
      if (isListenedTo) emit("uncaughtException", thrown, origin);
    } catch (problem) {
      this.isOver = true;
      this.#report(problem);
      // Only the first thread has a code of its own for it.
      const code = this.leaving.agent === 0 ? LISTENER_THREW : THREW;
      this.#go(code, `threw in a listener of uncaughtException: ${described(problem)}`);
    }
    // What was thrown has left contexts of async_hooks open, in which listeners are called. Then node leaves all of
    // them.
    leaveContexts();
    if (!isListenedTo) this.#fail(thrown, origin);
  }

  /**
   * @param {import("../modules/test-runner.mjs").FailedTest} failed a test of `node:test`: the thread's exit code will
   * say so
   */
  testFailed({ name, place, thrown, isCancelled }) {
    const at = this.#failedTests.length - (isCancelled ? 0 : this.#cancelled);
    this.#failedTests.splice(at, 0, `failed the test "${name}", at ${place}: ${described(thrown)}`);
    if (isCancelled) this.#cancelled += 1;
  }

  /** The program's module of this thread is evaluated, or has thrown. */
  evaluated() {
    this.isEvaluated = true;
  }

  /** The thread's part in the run is over, while its code runs. */
  halt() {
    this.isOver = true;
  }

  /** @returns {boolean} whether the thread begins nothing more */
  isDone() {
    return this.isOver;
  }

  /** @returns {string[]} what keeps the thread alive besides its ports, timers, workers and tasks, in words */
  liveHandles() {
    return [];
  }

  /** Nothing is left to be done, but listeners may begin something. */
  beforeExit() {
    emit("beforeExit", Number(own.exitCode ?? 0));
  }

  /** Nothing keeps the thread alive. */
  leave() {
    const before = Number(own.exitCode ?? 0);
    if (!this.isEvaluated) own.exitCode ??= UNSETTLED;
    const why = this.isEvaluated ? "" : UNSETTLED_WHY;
    this.#emitExit(doesOtherwise("unsettledAtExit") ? Number(own.exitCode ?? 0) : before);
    const code = Number(own.exitCode ?? 0);
    const { agent, player: { context: { board } } } = this.leaving;
    if (agent !== 0) {
      this.#depart(code, why === "" ? "" : `it ${why}`);
      board.pass(agent);
      return;
    }
    this.#give();
    board.end.end(code === 0 ? "finished" : "failed", code === 0 ? "" : this.#failedText(code, why));
  }

  /** Nothing of an earlier run is left. */
  clear() {
    this.isOver = false;
    this.isEvaluated = false;
    this.#hasReported = false;
    this.#failedTests = [];
    this.#cancelled = 0;
    this.parentPort = undefined;
    own.exitCode = undefined;
    own._exiting = false;
  }

  /**
   * The program's code ends its thread. It doesn't go on.
   * @param {unknown[]} given what `process.exit` got: the exit code, or nothing. Node throws if it isn't a whole number
   */
  exit(given) {
    if (given.length > 0) own.exitCode = given[0];
    const where = `calls process.exit at ${this.leaving.here()}${this.#printedText()}`;
    // A listener of `exit` exits once more.
    if (this.isOver) this.#go(Number(own.exitCode ?? 0), where);
    this.#end(Number(own.exitCode ?? 0), where);
  }

  /** @param {unknown} thrown @param {ErrorOrigin} origin */
  #fail(thrown, origin) {
    if (this.isOver) return;
    const what = origin === "unhandledRejection" ? "threw (a rejection that nobody handles)" : "threw";
    const text = `${what} ${described(thrown)}`;
    this.leaving.note(text.split("\n")[0].replace(/^threw/, "throws"), PLACE.exec(text)?.[1]);
    this.#report(thrown);
    own.exitCode = THREW;
    this.#end(THREW, text);
  }

  /** @param {unknown} thrown which the thread that has started this one gets, if it is the first */
  #report(thrown) {
    if (this.parentPort === undefined || this.#hasReported) return;
    this.#hasReported = true;
    this.leaving.ports.send(this.parentPort, serializeError(thrown), [], undefined, KIND.ERROR);
  }

  /** @param {number} code that listeners of `exit` get @param {string} text why, if that isn't its natural end */
  #end(code, text) {
    this.#emitExit(code);
    this.#go(Number(own.exitCode ?? code), text);
  }

  /** @param {number} code that listeners of `exit` get */
  #emitExit(code) {
    this.isOver = true;
    own._exiting = true;
    try {
      emit("exit", code);
    } catch (thrown) {
      this.#threwAtExit(thrown);
    }
  }

  /** @param {unknown} thrown by a listener of `exit`: it is caught as at any time, but the exit code stays */
  #threwAtExit(thrown) {
    // This one's own guard is a listener too.
    if (listenersOf("uncaughtException") > 1) emit("uncaughtException", thrown, "uncaughtException");
    else if (this.leaving.agent === 0) own.exitCode ||= THREW;
    else this.#report(thrown);
  }

  /** @param {number} code @param {string} text @returns {never} the program's code doesn't go on */
  #go(code, text) {
    const { agent, player: { part, context: { board } }, leave } = this.leaving;
    if (agent !== 0) {
      this.#depart(code, text);
      this.leaving.closeSockets();
      board.pass(agent);
      return leave();
    }
    part.enter();
    if (code === 0) part.end("finished", "");
    return part.end("failed", /^threw\b/.test(text) ? `agent 0 ${text}` : this.#failedText(code, text));
  }

  /** @param {number} code of the first thread @param {string} why @returns {string} */
  #failedText(code, why) {
    // The program may have replaced the iterators of arrays.
    const { 0: first, length } = this.#failedTests;
    if (first === undefined) return `agent 0 exited with code ${code}${why === "" ? "" : `: it ${why}`}`;
    return `agent 0 ${first}${length === 1 ? "" : `\nand ${length - 1} more failed`}`;
  }

  /** What the first thread has done is taken. */
  #give() {
    const { agent, player: { part, context: { board } } } = this.leaving;
    part.enter();
    board.journal.countOrdinary(agent, part.accesses.count);
    part.isPlaying = false;
  }

  /** @returns {string} what the thread has written to standard error before it exits, in words; nothing if it hasn't */
  #printedText() {
    const printed = this.leaving.printed();
    return printed === "" ? "" : `, after it wrote to standard error:\n${printed}`;
  }

  /**
   * @param {number} code of a thread that another one has started
   * @param {string} text why, if that isn't its natural end
   */
  #depart(code, text) {
    const { agent, threadTexts, player: { context: { board } }, ports, threads } = this.leaving;
    if (code !== 0) threadTexts.setEnd(text);
    ports.send(this.parentPort, code, [], undefined, KIND.EXIT);
    threads.closePorts(agent);
    threads.endChildren(agent);
    this.#give();
    board.line.become(agent, PHASE.FINISHED);
  }
}
