// The real loop of a program's thread, by which the recorder goes on there itself. Node's own timers and immediates go
// by the run's loop there (`timers.mjs`), so this stands on what node has below them. Load this file only in a
// program's thread: from then on nothing else is called when the thread's real loop turns, or when a real time has
// passed.

import { apply } from "../../primordials.mjs";
import { IMMEDIATES, REFED_IMMEDIATES, enterContext, exitContext, realTimers } from "../node/internals.mjs";

const {
  binding, getLibuvNow, immediateInfo, scheduleTimer, setupTimers, toggleImmediateRef, toggleTimerRef,
} = realTimers;

/** Something that the recorder does later. Node finds it as the resource of what runs then. */
export class RecorderCallback {
  /** @param {() => void} act @param {number} [due] by the machine's clock, in milliseconds */
  constructor(act, due = 0) {
    this.act = act;
    this.due = due;
  }
}

/** @type {RecorderCallback[]} what is done when the loop turns next */
let next = [];

/** @type {RecorderCallback[]} what is done at a time */
let timed = [];

/** @param {boolean} isAwaited whether the loop is to turn at once and call `turn`: node looks at its counts for that */
function awaitTurn(isAwaited) {
  const change = isAwaited ? 1 : -1;
  immediateInfo[IMMEDIATES] += change;
  immediateInfo[REFED_IMMEDIATES] += change;
  apply(toggleImmediateRef, binding, [isAwaited]);
}

/** @returns {RecorderCallback[]} what is to be done when the loop has turned */
function takeNext() {
  const all = next;
  next = [];
  if (all.length > 0) awaitTurn(false);
  return all;
}

/** @param {number} now @returns {RecorderCallback[]} what is to be done by then */
function takeDue(now) {
  const all = timed;
  /** @type {RecorderCallback[]} */
  const due = [];
  timed = [];
  for (let at = 0; at < all.length; at += 1) {
    const list = all[at].due <= now ? due : timed;
    list[list.length] = all[at];
  }
  return due;
}

/** @returns {number} when the first time has come; 0 if there is none */
function firstDue() {
  let first = Infinity;
  for (let at = 0; at < timed.length; at += 1) first = Math.min(first, timed[at].due);
  return first === Infinity ? 0 : first;
}

/**
 * A function that node calls. No further one is below what is done: a stack has ten frames, also of a program's error.
 * @param {(now: number) => RecorderCallback[]} take takes what is to be done
 * @returns {(now: number) => number} returns when a time has come next
 */
const doing = (take) => (now) => {
  const all = take(now);
  for (let at = 0; at < all.length; at += 1) {
    enterContext(all[at]);
    try {
      all[at].act();
    } finally {
      exitContext();
    }
  }
  return firstDue();
};

setupTimers(doing(takeNext), doing(takeDue));

/** @param {() => void} act is called when the real loop has turned @returns {RecorderCallback} */
export function turnLater(act) {
  const later = new RecorderCallback(act);
  if (next.length === 0) awaitTurn(true);
  next[next.length] = later;
  return later;
}

/** @returns {number} how many immediates node counts because the loop is to turn */
export const turns = () => (next.length === 0 ? 0 : 1);

/** @param {() => void} act @param {number} milliseconds of the machine's clock @returns {RecorderCallback} */
export function wake(act, milliseconds) {
  const now = apply(getLibuvNow, binding, []);
  const later = new RecorderCallback(act, now + milliseconds);
  timed[timed.length] = later;
  apply(scheduleTimer, binding, [Math.max(1, firstDue() - now)]);
  apply(toggleTimerRef, binding, [true]);
  return later;
}

/** @param {RecorderCallback | undefined} later that isn't to be done any more */
export function never(later) {
  if (later !== undefined) later.act = () => {};
}
