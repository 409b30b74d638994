// Ports of the run with node's methods. Their listeners are node's own code. What node has below them is the run's: how
// a port begins and stops to give messages, keeps its thread alive, sends, and is closed. A listener gets a message
// when the run delivers it.

import util from "node:util";
import threads from "node:worker_threads";
import { methodOf, replaceNeeded } from "../../agent/ordinary/patch.mjs";
import { apply, put } from "../../primordials.mjs";
import { kNewListener, kRemoveListener, onClose } from "../node/internals.mjs";
import { Ports } from "./ports.mjs";

const { [kNewListener]: engineNew, [kRemoveListener]: engineRemove } = /** @type {any} */ (EventTarget.prototype);
const { custom } = /** @type {any} */ (util).inspect;
const { prototype } = /** @type {any} */ (threads.MessagePort);
const { [onClose]: engineClosed, [custom]: engineShown, listenerCount, postMessage: enginePost } = prototype;

/** The names of node's method that gives listeners a value, and of the ports that come with it. */
const DISPATCH = Symbol.for("nodejs.internal.kHybridDispatch");
const RECEIVING = Symbol.for("nodejs.internal.kCurrentlyReceivingPorts");

/** Listeners of this type make a port begin, and keep its thread alive. */
const MESSAGE = "message";

/** Node gives the listeners of a port at least so many messages at once, if they come. */
const AT_ONCE = 1_000;

export class NodePorts extends Ports {
  /** @param {any} port @param {import("./ports.mjs").Envelope} envelope a message that its listeners get now */
  give(port, { value, ports, isUnread }) {
    port[RECEIVING] = ports;
    // Node gives what a listener throws to the process.
    port[DISPATCH](value, isUnread ? "messageerror" : MESSAGE, undefined);
    port[RECEIVING] = undefined;
  }

  /** @param {any} port that is closed: its listeners learn that now */
  giveClose(port) {
    apply(engineClosed, port, []);
  }

  /** @param {any} port that another object stands for from now on: node closes this one */
  leave(port) {
    super.leave(port);
    if (apply(listenerCount, port, ["close"]) > 0) this.context.later("has closed a port", () => this.giveClose(port));
  }

  /** @param {any} port that the program's code closes. Node looks for messages there once more if it has given one */
  closeLater(port) {
    const known = this.known(port);
    if (known.closed) return;
    known.closed = true;
    known.isClosing = true;
    known.left = this.latest === known ? Math.max(this.waiting(port), AT_ONCE - 1) : 0;
    this.context.later("has closed a port", () => this.closeNow(port));
  }

  /** @param {any} port that has its first listener of messages, or has lost its last one @param {boolean} listens */
  listens(port, listens) {
    const known = this.known(port);
    known.refed = listens && !known.isGone;
    if (listens) known.listened = this.context.hereLater();
    this[listens ? "start" : "stop"](port);
  }
}

/** @type {(ports: NodePorts) => Record<string, (this: any, ...given: any[]) => any>} the methods of ports of the run */
const methodsOf = (ports) => ({
  postMessage: function postMessage(...given) {
    // Node throws if there is nothing to send.
    if (given.length === 0) return apply(enginePost, this, given);
    return ports.send(this, given[0], given[1], postMessage);
  },
  start() { ports.start(this); },
  close(done) {
    if (typeof done === "function") this.once("close", done);
    ports.closeLater(this);
  },
  ref() {
    const known = ports.known(this);
    known.refed = !known.isGone;
    known.where ??= ports.context.hereLater();
  },
  unref() { ports.known(this).refed = false; },
  hasRef() { return ports.known(this).refed; },
});

/**
 * Puts methods in the place of node's, for ports of the run.
 * @param {Ports} ports
 * @param {Record<string, Function>} methods
 */
export function serveMethods(ports, methods) {
  for (const [name, method] of Object.entries(methods)) {
    replaceNeeded(prototype, name, (engine) =>
      methodOf((port, given) => apply(ports.has(port) ? method : engine, port, given), engine));
  }
}

/** @param {NodePorts} ports which get these methods */
export function servePorts(ports) {
  // Node calls what this makes with a count and a type of listeners.
  /** @type {(engine: Function, count: number) => Function} */
  const changing = (engine, count) => /** @this {any} @param {any[]} given */ function (...given) {
    if (given[1] === MESSAGE && given[0] === count && ports.has(this)) ports.listens(this, count > 0);
    return apply(engine, this, given);
  };
  const [begins, stops] = [changing(engineNew, 1), changing(engineRemove, 0)];
  /** @this {any} */
  const shown = function () {
    if (!ports.has(this)) return apply(engineShown, this, []);
    const { isGone, refed } = ports.known(this);
    return { __proto__: prototype, active: !isGone, ...(isGone ? {} : { refed }), ...this };
  };
  ports.onAdopted = (port) => {
    port[kNewListener] = begins;
    port[kRemoveListener] = stops;
    // Node closes a port when another thread has left its run. The run's own listeners don't get to know.
    put(port, onClose, () => {});
    put(port, custom, shown);
  };
  serveMethods(ports, methodsOf(ports));
}
