// Has agents learned in threads of their own, and ends a thread in which an agent never comes back.

import { begunThread } from "../../processes/thread.mjs";
import { GRAPH_FLAGS } from "../../program/node/graph-flags.cjs";
import { Refused } from "../../options/refused.mjs";
import { framesOf } from "../../processes/place-of-thread.mjs";
import { TIME_OVER } from "../../processes/time-over.mjs";
import { PART, PROGRESS } from "./learning-progress.mjs";

/** @typedef {import("../../processes/thread.mjs").Thread} Thread */
/** @typedef {import("./learning-report.mjs").LearningReport} LearningReport */

const LEARNING = new URL("./learning-worker.mjs", import.meta.url);
const AGAIN = new URL("./again-worker.mjs", import.meta.url);
const LINE = new URL("./line-worker.mjs", import.meta.url);
const LIBRARY = new URL("../../", import.meta.url).href;

/** What a thread needs that uses node's parser. */
const FLAGS = [...process.execArgv, ...GRAPH_FLAGS];

const POLLS_EVERY = 100;

/** So many milliseconds are left to what is at work when the time is over: to code of the agents, and to all of it. */
const GRACE_OF_AGENTS = 1_000;
const GRACE = 10_000;

/** What doesn't come back, by the numbers of the parts. */
const LATE = Object.freeze([
  "a thread that learns", "an agent that was called alone", "`init`", "`check`", "a module that is loaded",
]);
const OF_AGENT = ": it makes no call of Atomics, or catches everything that is thrown";

/** Agents that can't be learned: the message says why. */
export class Unlearned extends Error {}

/** Agents that did something else with the same answers. */
export class DoesOtherwise extends Error {}

/**
 * @typedef {Omit<import("./learning-worker.mjs").LearningWorkerData, "progress">} ApartLearning
 */

/**
 * Learns the agents of a module, and searches all their schedules.
 * @param {ApartLearning} wanted
 * @param {object} how
 * @param {number} how.seconds for how long an agent may make no call
 * @param {(states: number) => void} [how.onProgress]
 * @param {AbortSignal} [how.signal] what ends it
 * @param {AbortSignal} [how.over] aborted when the time of the whole command is over
 * @returns {Promise<LearningReport>}
 * @throws {Refused | Unlearned | DoesOtherwise}
 */
export async function learnApart(wanted, { seconds, onProgress = () => {}, signal, over }) {
  const thread = begunThread(LEARNING, FLAGS);
  const watch = new Watch(thread, seconds, onProgress, over);
  thread.give(LEARNING, { ...wanted, progress: watch.words.buffer });
  const stop = () => void thread.stop();
  signal?.addEventListener("abort", stop);
  try {
    const { message, ended } = await thread.next();
    if (ended === undefined) return reportIn(message);
    if (signal?.aborted) throw signal.reason;
    throw new Unlearned(isStopped(ended) ? await watch.late(wanted.module) : ended);
  } finally {
    signal?.removeEventListener("abort", stop);
    watch.end();
    await thread.stop();
  }
}

/** Ends a thread in which the agents' code doesn't come back. */
class Watch {
  /**
   * @param {Thread} thread
   * @param {number} seconds for how long the code may run
   * @param {(states: number) => void} [onProgress]
   * @param {AbortSignal} [over] aborted when the time of the whole command is over
   */
  constructor(thread, seconds, onProgress = () => {}, over = undefined) {
    this.words = new Int32Array(new SharedArrayBuffer(4 * PROGRESS.WORDS));
    this.thread = thread;
    this.seconds = seconds;
    this.over = over;
    this.calls = -1;
    this.since = performance.now();
    /** @type {number | undefined} since when the time of all is over */
    this.overSince = undefined;
    /** For how many seconds the code had run that was ended. */
    this.ran = seconds;
    /** @type {import("../../processes/place-of-thread.mjs").StackFrame[] | undefined} where the code was then */
    this.frames = undefined;
    this.timer = setInterval(() => {
      onProgress(this.words[PROGRESS.STATES]);
      this.#look();
    }, POLLS_EVERY);
  }

  /**
   * @param {string} [rewritten] the agents' module, if its code was rewritten
   * @returns {Promise<string>} why the thread was ended
   */
  async late(rewritten) {
    const part = this.words[PROGRESS.RUNS];
    if (part === PART.NONE) return TIME_OVER;
    const frames = (this.frames ?? []).filter(({ file }) => file.startsWith("file:") && !file.startsWith(LIBRARY));
    const [line] = rewritten === undefined ? frames.map(writtenLine) : [await lineAt(rewritten, frames)];
    const where = line === undefined ? "" : `; it is at ${line}`;
    return `${LATE[part]} didn't come back within ${this.ran} s${part === PART.AGENT ? OF_AGENT : ""}${where}`;
  }

  end() {
    clearInterval(this.timer);
  }

  #look() {
    const { words } = this;
    const isSame = words[PROGRESS.RUNS] !== PART.NONE && words[PROGRESS.CALLS] === this.calls;
    const now = performance.now();
    if (!isSame) this.since = now;
    this.calls = words[PROGRESS.CALLS];
    if (this.over?.aborted) this.overSince ??= now;
    const ran = now - this.since;
    const isOver = this.overSince !== undefined && (ran > GRACE_OF_AGENTS || now - this.overSince > GRACE);
    if (isOver && ran <= 1_000 * this.seconds) this.ran = Math.ceil(ran / 1_000);
    if (isOver || ran > 1_000 * this.seconds) void this.#end();
  }

  /** Ends the thread, and asks it before where it is. */
  async #end() {
    if (this.frames !== undefined) return;
    this.frames = [];
    this.frames = await framesOf(this.thread.worker);
    await this.thread.stop();
  }
}

/** @param {any} message of the thread @returns {LearningReport} */
function reportIn({ report, refused, unlearned, differs, failed }) {
  if (refused !== undefined) throw new Refused(refused);
  if (unlearned !== undefined) throw new Unlearned(unlearned);
  if (differs !== undefined) throw new DoesOtherwise(differs);
  if (failed !== undefined) throw new Error(failed);
  return report;
}

/** @param {import("../../processes/place-of-thread.mjs").StackFrame} frame of code as it is written */
const writtenLine = ({ file, line, column }) => `${file.slice(file.lastIndexOf("/") + 1)}:${line}:${column}`;

/** @param {string} ended why a thread is no more @returns {boolean} whether it was stopped from outside */
const isStopped = (ended) => /exit code 1$/.test(ended);

/**
 * @param {string} module
 * @param {import("../../processes/place-of-thread.mjs").StackFrame[]} frames of its rewritten code
 * @returns {Promise<string | undefined>} the line of the module as it is written
 */
async function lineAt(module, frames) {
  if (frames.length === 0) return undefined;
  const thread = begunThread(LINE, FLAGS);
  thread.give(LINE, { module, frames });
  try {
    return (await thread.next()).message?.line;
  } finally {
    await thread.stop();
  }
}

/** @returns {Thread} one that learns again, once it is given what: it loads the recorder's modules ahead of that */
export function beginAgain() {
  const thread = begunThread(AGAIN, FLAGS);
  thread.giveAhead(AGAIN);
  return thread;
}

/**
 * Learns each edge once more, in the code as it is written.
 * @param {Omit<import("./again-worker.mjs").AgainWorkerData, "progress">} given
 * @param {object} how
 * @param {number} [how.seconds] for how long an agent may make no call
 * @param {AbortSignal} [how.over] aborted when there is no more time for it
 * @param {Thread} [how.thread] one that was begun for it
 * @returns {Promise<string | undefined>} how it differs, or that its time was over
 */
export async function learnAgain(given, { seconds = Infinity, over, thread = beginAgain() } = {}) {
  const watch = new Watch(thread, seconds);
  const stop = () => void thread.stop();
  over?.addEventListener("abort", stop);
  thread.give(AGAIN, { ...given, progress: watch.words.buffer });
  try {
    const { message, ended } = over?.aborted ? { message: undefined, ended: TIME_OVER } : await thread.next();
    if (ended !== undefined && over?.aborted) return TIME_OVER;
    if (ended !== undefined) return `There ${isStopped(ended) ? await watch.late() : ended}`;
    if (message.failed !== undefined) throw new Error(message.failed);
    return message.differs;
  } finally {
    over?.removeEventListener("abort", stop);
    watch.end();
    await thread.stop();
  }
}
