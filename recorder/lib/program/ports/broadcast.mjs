// The BroadcastChannel of a program. Node's own one starts itself, and its messages would come by the real loop. So a
// message goes by the hidden ports of threads, to each channel of the name that exists when it is sent.

import threads from "node:worker_threads";
import { apply, uncurried } from "../../primordials.mjs";
import { defineEventHandler, kNewListener } from "../node/internals.mjs";
import { TO_CHANNELS } from "../moves/moves.mjs";
import { PartInRun } from "../moves/part-in-run.mjs";
import { nodeError } from "../node/node-error.mjs";
import { KIND } from "./ports.mjs";
import { UNREAD } from "../moves/unread.mjs";
import { sent } from "./message-values.mjs";

const { TypeError, structuredClone } = globalThis;
const post = uncurried(threads.MessagePort.prototype.postMessage);

/** A port that is closed: what is sent by it is only looked at, as to whether it can be sent. */
const { port1: closed } = new /** @type {any} */ (threads).MessageChannel();
closed.close();
const EngineTarget = EventTarget;
const { [kNewListener]: engineNew } = /** @type {any} */ (EngineTarget.prototype);
const EngineException = DOMException;
const EngineEvent = MessageEvent;
const { imul } = Math;
const codeAt = uncurried(String.prototype.charCodeAt);

/** The name of the method that gives a message to the listeners of a channel. */
export const DELIVER = Symbol("deliver");

/** @param {string} name @returns {number} the same for each channel of a name, and not 0 */
function numberOf(name) {
  let number = 0x811c9dc5;
  for (let at = 0; at < name.length; at += 1) number = imul(number ^ codeAt(name, at), 0x01000193);
  return number | 1;
}

/**
 * @typedef {object} Casting
 * @property {import("./ports.mjs").Ports} ports
 * @property {import("../moves/moves.mjs").Moves} moves
 * @property {import("../moves/control-channels.mjs").ControlChannels} control
 * @property {import("../moves/buffers.mjs").Buffers} buffers
 */

/** @typedef {Pick<import("./ports.mjs").Envelope, "value" | "isUnread">} Got what a thread gets of a message */

/** @param {unknown} bare value that can be sent @returns {Got} what this thread gets of it */
function clonedHere(bare) {
  try {
    return { value: structuredClone(bare) };
  } catch (thrown) {
    return { value: thrown, isUnread: true };
  }
}

/** @param {import("../moves/unread.mjs").UnreadMessage} found ahead of an envelope @returns {Got} */
const gotOf = (found) => (UNREAD in found ? { value: found[UNREAD], isUnread: true } : { value: found.message.value });

/**
 * Sends a message to all channels of a name, except for the one that sends.
 * @param {Casting} casting
 * @param {number} from the channel's number
 * @param {unknown} value
 * @param {Function} called
 */
function cast({ ports, moves, control, buffers }, from, value, called) {
  const { table, agent } = ports.context;
  const bare = sent(value, buffers);
  post(closed, bare);
  const first = moves.send(called, TO_CHANNELS);
  let count = 0;
  for (let id = 0; id < table.count; id += 1) {
    if (id === from || table.name(id) !== table.name(from) || table.isClosed(id)) continue;
    const owner = table.owner(id);
    // Each channel gets a message of its own. With one for all, the first receiver's acts would seem to come before the
    // second one's.
    const number = count === 0 ? first : moves.sendNow();
    count += 1;
    const envelope = { kind: KIND.MESSAGE, number, ports: [], ids: [] };
    ports.context.noted(number, envelope.kind, bare);
    if (owner === agent) ports.queueOf(id).push({ ...envelope, ...clonedHere(bare) });
    else control.handWith(owner, { kind: "broadcast", id, envelope }, bare);
    table.addWaiting(id, 1);
    ports.rouse(id);
  }
}

/** @param {string} name of an argument that isn't there */
const missing = (name) =>
  nodeError("ERR_MISSING_ARGS", `The "${name}" argument must be specified`, {}, TypeError);

/** @type {PartInRun<Casting>} */
const part = new PartInRun();

/** The BroadcastChannel that the program finds. */
class BroadcastChannel extends EngineTarget {
  #known;
  #name;

  /** @param {unknown} name */
  constructor(name) {
    if (arguments.length === 0) throw missing("name");
    super();
    const { ports, moves } = part.needed;
    const { table, hereLater } = ports.context;
    moves.yield();
    this.#name = `${name}`;
    this.#known = ports.queued(this, (envelope) => this[DELIVER](envelope));
    Object.assign(this.#known, { refed: true, where: hereLater() });
    table.setName(this.#known.id, numberOf(this.#name));
    table.start(this.#known.id);
  }

  /** @param {unknown} target on which a method is called: as in node, it must be such a channel */
  static #needs(target) {
    if (#known in Object(target)) return;
    throw nodeError("ERR_INVALID_THIS", 'Value of "this" must be of type BroadcastChannel', {}, TypeError);
  }

  get name() {
    BroadcastChannel.#needs(this);
    return this.#name;
  }

  /** @param {any[]} given by node when there is another listener: how many of its type, the type, and more */
  [kNewListener](...given) {
    apply(engineNew, this, given);
    if (given[1] === "message") this.#known.listened = part.needed.ports.context.hereLater();
  }

  /** @param {unknown} value */
  postMessage(value) {
    BroadcastChannel.#needs(this);
    if (arguments.length === 0) throw missing("message");
    if (this.#known.closed) throw new EngineException("BroadcastChannel is closed.", "InvalidStateError");
    cast(part.needed, this.#known.id, value, this.postMessage);
  }

  close() {
    BroadcastChannel.#needs(this);
    if (this.#known.closed) return;
    this.#known.closed = true;
    const { ports } = part.needed;
    ports.context.table.close(this.#known.id);
    ports.mine.delete(this.#known.id);
  }

  ref() {
    BroadcastChannel.#needs(this);
    this.#known.refed = true;
    return this;
  }

  unref() {
    BroadcastChannel.#needs(this);
    this.#known.refed = false;
    return this;
  }

  /** @param {import("./ports.mjs").Envelope} envelope */
  [DELIVER]({ value, isUnread }) {
    this.dispatchEvent(new EngineEvent(isUnread ? "messageerror" : "message", { data: value }));
  }
}

for (const type of ["message", "messageerror"]) defineEventHandler(BroadcastChannel.prototype, type);

/** @param {Casting} given @returns {Function} the class by which the program makes such channels */
export function broadcastClass(given) {
  part.begin(given);
  const { control, ports } = given;
  control.onItem("broadcast", ({ id, envelope }, ahead = {}) =>
    void ports.queueOf(id).push({ ...envelope, ...gotOf(ahead) }));
  return BroadcastChannel;
}
