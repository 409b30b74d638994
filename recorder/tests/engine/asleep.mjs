// Whether a thread sleeps. Nothing of the language shows that an agent is in the engine's line. It is there if its
// thread has called `Atomics.wait`, hasn't returned, and sleeps.

import { readFileSync, readlinkSync } from "node:fs";

/**
 * The file in which the state of the thread that calls this can be read; null where the system has none, as all but
 * Linux.
 * @returns {string | null}
 */
export function ownStateFile() {
  try {
    return `/proc/${readlinkSync("/proc/thread-self")}/stat`;
  } catch {
    return null;
  }
}

/**
 * Whether the thread of a state file sleeps: it neither runs nor waits for a processor.
 * @param {string} file
 * @returns {boolean}
 */
export function isAsleep(file) {
  try {
    // The state follows the thread's name, which stands in parentheses and may have any characters.
    const text = readFileSync(file, "latin1");
    return text[text.lastIndexOf(")") + 2] === "S";
  } catch {
    // The thread is no more.
    return false;
  }
}
