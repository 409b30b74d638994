// The ports of a program for browsers: those of the run, with the interface of the DOM. A port isn't started by its
// listeners, but by `start` or by what is assigned to `onmessage`.

import threads from "node:worker_threads";
import { deleteProperty, getPrototypeOf, put } from "../../primordials.mjs";
import { DELIVER, broadcastClass } from "../ports/broadcast.mjs";
import { QueuedPort } from "../ports/known-ports.mjs";
import { serveMethods } from "../ports/port-events.mjs";
import { Ports } from "../ports/ports.mjs";
import { hide } from "./hidden.mjs";
import { Targets, methodsOf, putHandler, putMethods } from "./targets.mjs";

const EngineMessageEvent = MessageEvent;

/** What node's ports have, and those of browsers don't. Node itself calls some of it when it makes a port. */
const OF_NODE = Object.freeze([
  "addListener", "drain", "emit", "eventNames", "getMaxListeners", "hasRef", "listenerCount", "off", "once",
  "removeAllListeners", "removeListener", "setMaxListeners",
]);
const FOR_NODE = Object.freeze(["on", "ref", "unref"]);

/**
 * A message as an event. Of one that can't be read, the event has no data.
 * @param {import("../ports/ports.mjs").Envelope} envelope
 * @returns {Event}
 */
export const eventOfMessage = ({ value, ports, isUnread }) => (isUnread
  ? new EngineMessageEvent("messageerror", { data: null })
  : new EngineMessageEvent("message", /** @type {any} */ ({ data: value, ports })));

export class WebPorts extends Ports {
  targets = new Targets({
    uncaught: (thrown) => this.context.late.ends?.uncaught(thrown),
    drain: () => this.context.late.loop?.drain(),
    now: () => this.context.moves.board.clock.now(),
  });

  /**
   * Messages of all the BroadcastChannels of a thread come in the order in which they were sent: the standard has one
   * source of tasks for them. Each other port is a source of its own.
   */
  ready() {
    const ready = super.ready();
    const isChannel = (/** @type {any} */ port) => this.known(port) instanceof QueuedPort;
    const channels = ready.filter(isChannel);
    if (channels.length < 2) return ready;
    this.context.control.take();
    const numberOf = (/** @type {any} */ channel) => this.queueOf(this.known(channel).id)[0]?.number ?? Infinity;
    const first = channels.reduce((one, other) => (numberOf(other) < numberOf(one) ? other : one));
    return ready.filter((port) => port === first || !isChannel(port));
  }

  /** @param {any} port @param {import("../ports/ports.mjs").Envelope} envelope */
  give(port, envelope) {
    this.targets.dispatch(port, eventOfMessage(envelope));
  }
}

/**
 * Puts the DOM's methods in the place of node's, for ports of the run.
 * @param {WebPorts} ports
 */
export function serveWebPorts(ports) {
  const { targets } = ports;
  const { prototype } = threads.MessagePort;
  for (const owner of [prototype, getPrototypeOf(prototype)]) {
    for (const name of OF_NODE) deleteProperty(/** @type {object} */ (owner), name);
  }
  for (const name of FOR_NODE) hide(prototype, name);
  /** @type {Record<string, (this: any, ...given: any[]) => any>} */
  const methods = {
    ...methodsOf(targets),
    postMessage(value, transfer) {
      if (!ports.known(this).closed) ports.send(this, value, transfer, methods.postMessage);
    },
    start() { ports.start(this); },
    close() { ports.close(this); },
  };
  serveMethods(ports, methods);
  putHandler(prototype, "message", targets, (port) => ports.start(port));
  putHandler(prototype, "messageerror", targets);
}

/**
 * The BroadcastChannel of the run, with the interface of the DOM.
 * @param {import("../ports/broadcast.mjs").Casting} casting
 * @param {Targets} targets
 * @returns {Function} the class by which the program makes such channels
 */
export function webBroadcastClass(casting, targets) {
  const Channel = /** @type {any} */ (broadcastClass(casting));
  class BroadcastChannel extends Channel {
    /** @param {import("../ports/ports.mjs").Envelope} envelope */
    [DELIVER](envelope) {
      targets.dispatch(this, eventOfMessage(envelope));
    }
  }
  putMethods(BroadcastChannel.prototype, targets);
  for (const type of ["message", "messageerror"]) putHandler(BroadcastChannel.prototype, type, targets);
  for (const name of ["ref", "unref"]) put(BroadcastChannel.prototype, name, undefined);
  return BroadcastChannel;
}
