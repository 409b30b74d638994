// Where the code of a worker is that goes on without end. By the inspector of this process an expression is evaluated
// there, between two steps of that code, and its error has the frames. The worker isn't paused: one that is paused when
// nobody listens to it any more can't be terminated.

import { createRequire } from "node:module";
import { within } from "./within.mjs";

/** @typedef {{ file: string, line: number, column: number }} StackFrame of a worker's code, line and column from 1 */
/** @typedef {import("node:inspector").Session} Session */

// How long the worker may take to say where it is. Code of the engine's own can't be interrupted.
const SECONDS = 5;

/** What the worker's own inspector is asked for. The number of a question is its place here. */
const QUESTIONS = Object.freeze([
  // From then on errors have their frames, whatever the code has made of `Error`.
  { method: "Runtime.enable" },
  { method: "Runtime.evaluate", params: { expression: "throw 0", silent: true } },
  { method: "Runtime.disable" },
]);
const EVALUATED = 1;

/** @returns {Session | undefined} undefined if this node has no inspector */
function connected() {
  try {
    const { Session: Inspector } = createRequire(import.meta.url)("node:inspector");
    const session = new Inspector();
    session.connect();
    return session;
  } catch {
    return undefined;
  }
}

/**
 * The frames of a worker's code, the innermost first. The worker goes on.
 * @param {import("node:worker_threads").Worker} worker one of this process
 * @param {number} [seconds] for which it is waited
 * @returns {Promise<StackFrame[]>} none if they can't be found out in time
 */
export async function framesOf(worker, seconds = SECONDS) {
  const session = connected();
  if (session === undefined) return [];
  try {
    return await within(framesBy(session, worker.threadId), seconds) ?? [];
  } finally {
    session.disconnect();
  }
}

/** @param {any} result of the evaluated expression @returns {StackFrame[]} without that of the expression */
function framesIn({ exceptionDetails }) {
  const frames = exceptionDetails?.stackTrace?.callFrames ?? [];
  return frames.slice(1).map((/** @type {any} */ { url, lineNumber, columnNumber }) =>
    ({ file: url, line: lineNumber + 1, column: columnNumber + 1 }));
}

/**
 * @param {Session} session
 * @param {number} threadId of the worker
 * @returns {Promise<StackFrame[]>}
 */
function framesBy(session, threadId) {
  return new Promise((done) => {
    session.on("NodeWorker.attachedToWorker", ({ params: { sessionId, workerInfo } }) => {
      if (!workerInfo.title.startsWith(`[worker ${threadId}]`)) return;
      QUESTIONS.forEach((question, id) => {
        session.post("NodeWorker.sendMessageToWorker", { sessionId, message: JSON.stringify({ id, ...question }) });
      });
    });
    session.on("NodeWorker.receivedMessageFromWorker", ({ params: { message } }) => {
      const { id, result } = JSON.parse(message);
      if (id === EVALUATED) done(framesIn(result ?? {}));
    });
    session.post("NodeWorker.enable", { waitForDebuggerOnStart: false }, (error) => {
      if (error !== null) done([]);
    });
  });
}
