// What a thread knows about each port that it has, and where the port's messages come from.

import { AsyncResource } from "node:async_hooks";
import { getEventListeners } from "node:events";
import threads from "node:worker_threads";
import { hasOwn, uncurried } from "../../primordials.mjs";
import { UNREAD, nextOf } from "../moves/unread.mjs";

/** @type {{ new (type: string): { runInAsyncScope(act: () => void): void } }} */
const Scope = /** @type {any} */ (AsyncResource);
const close = uncurried(threads.MessagePort.prototype.close);

/** @typedef {import("./ports.mjs").Envelope} Envelope */

/** A port of node's. */
export class KnownPort {
  /** Whether it keeps its thread alive. */
  refed = false;

  /** @type {import("../../agent/frames.mjs").PlaceFinder | undefined} where a listener of messages was added */
  listened = undefined;

  /** @type {import("../../agent/frames.mjs").PlaceFinder | undefined} what else keeps its thread alive */
  where = undefined;

  closed = false;

  /** Whether its code has closed it, and the thread's loop hasn't come to that yet. */
  isClosing = false;

  /** How many of the messages that wait come nevertheless: it was closed while its listeners had one. */
  left = 0;

  /** In this its messages are delivered. */
  scope = new Scope("MESSAGEPORT");

  /** @type {((envelope: Envelope) => void) | undefined} gets its messages; undefined: they are for listeners */
  taker = undefined;

  /** @param {any} port @param {number} id */
  constructor(port, id) {
    this.port = port;
    this.id = id;
  }

  /** @returns {Envelope | undefined} its next message; undefined: node has closed it */
  next() {
    const found = nextOf(this.port);
    if (found === undefined) return undefined;
    if (!(UNREAD in found) && hasOwn(found.message, "kind")) return found.message;
    const about = nextOf(this.port);
    if (about === undefined) return undefined;
    if (UNREAD in found) return { ...about.message, value: found[UNREAD], ports: [], isUnread: true };
    return { ...about.message, ...found.message };
  }

  /** @returns {boolean} whether its thread has learned that it is closed */
  get isGone() {
    return this.closed && !this.isClosing;
  }

  /** @returns {boolean} whether it keeps its thread alive */
  get keeps() {
    return this.refed && !this.closed;
  }

  /** @returns {string} how it does that, in words */
  get keeper() {
    const listens = getEventListeners(this.port, "message").length > 0;
    const where = listens ? this.listened : this.where ?? this.listened;
    return `a port ${listens ? "with a listener from" : "that is kept alive at"} ${where?.() ?? ""}`;
  }

  /** The run is over. */
  end() {
    close(this.port);
  }
}

/** What stands for a port whose messages come by the hidden ports of threads. */
export class QueuedPort extends KnownPort {
  /** @type {Envelope[]} */
  queue = [];

  /** @param {any} port @param {number} id @param {(envelope: Envelope) => void} taker */
  constructor(port, id, taker) {
    super(port, id);
    this.taker = taker;
  }

  next() {
    return this.queue.shift();
  }

  end() {}
}
