// Logs of events by hand.

import { FLAG, Log, NO_CALL, READ } from "../../lib/memory/log.mjs";

/**
 * A log of events that are given as a trace spells them, with a number for each source.
 * @param {{ agent: number, block: number, byte: number, size: number, read: boolean, write: boolean,
 *   atomic: boolean, waiters: boolean, source: number, call?: number }[]} events
 * @returns {Log}
 */
export function logOf(events) {
  const log = new Log(Log.memory(events.length), new Int32Array(1), 0);
  const view = { kind: 0, offset: 0, length: 0 };
  for (const { agent, block, byte, size, read, write, atomic, waiters, source, call = 0 } of events) {
    const flags = (read ? FLAG.READS : 0) | (write ? FLAG.WRITES : 0) | (atomic ? FLAG.ATOMIC : 0)
      | (waiters ? FLAG.WAITERS : 0);
    log.append(atomic || waiters ? 0 : READ, agent, NO_CALL, flags, call, block, byte, byte + size, view, source);
  }
  return log;
}
