// A message that comes by a port of node's, or why it can't be read. The engine throws if a stack is too small for
// objects that are in each other. A Worker can send more of them than the first thread can read. Then node emits
// `messageerror`.

import threads from "node:worker_threads";

const { receiveMessageOnPort: receive } = threads;

/** In place of `message`: what was thrown. */
export const UNREAD = Symbol("unread");

/** @typedef {{ message?: any, [UNREAD]?: unknown }} UnreadMessage */

/** @param {any} port @returns {UnreadMessage | undefined} what comes next; undefined: nothing */
export function nextOf(port) {
  try {
    return receive(port);
  } catch (thrown) {
    return { [UNREAD]: thrown };
  }
}
