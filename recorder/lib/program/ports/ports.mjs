// The ports of a program's thread. They are node's own, and messages go by node's own channels, so that what can be
// cloned and transferred is as in node. But a port is never started for node. A message waits in it until the run
// delivers it. What listens to ports is in `port-events.mjs`, and in `web/web-ports.mjs` for browsers.

import threads from "node:worker_threads";
import { described } from "../../agent/described.mjs";
import { construct, mapForEach, proxyOf, put, uncurried, weakGet, weakHas, weakSet } from "../../primordials.mjs";
import { NOBODYS } from "../../board/port-table.mjs";
import { KnownPort, QueuedPort } from "./known-ports.mjs";
import { toPort, toThread } from "../moves/moves.mjs";
import { demandOpen, demandTransferable, transferredOf } from "./transfer-list.mjs";
import { received, sent } from "./message-values.mjs";

/** @type {{ new (): { port1: any, port2: any } }} */
const EngineChannel = /** @type {any} */ (threads.MessageChannel);
const receive = threads.receiveMessageOnPort;
const { WeakMap: EngineWeakMap } = globalThis;
const post = uncurried(threads.MessagePort.prototype.postMessage);

/** What a message is, besides one of the program's code. */
export const KIND = Object.freeze({ MESSAGE: 0, CLOSE: 1, ONLINE: 2, ERROR: 3, EXIT: 4 });

/** @param {number} kind @returns {boolean} whether it is about a thread: then it comes, if anybody listens or not */
const isUrgent = (kind) => kind > KIND.CLOSE;

/** @typedef {import("node:worker_threads").MessagePort} MessagePort */

/**
 * @typedef {object} Envelope a message as it is sent
 * @property {any} value
 * @property {number} kind one of `KIND`
 * @property {number} number of the message in the run
 * @property {MessagePort[]} ports that are transferred in it
 * @property {number[]} ids of these
 * @property {boolean} [isUnread] whether it couldn't be read: the value is what was thrown
 */

/**
 * @typedef {object} AfterPorts what a thread has that is made after its ports, as far as these need it
 * @property {{ drain: () => void }} [loop]
 * @property {{ uncaught: (thrown: unknown) => void }} [ends]
 */

/**
 * @typedef {object} PortContext what ports need of their thread
 * @property {number} agent
 * @property {import("../../board/port-table.mjs").PortTable} table
 * @property {import("../moves/moves.mjs").Moves} moves
 * @property {import("../moves/buffers.mjs").Buffers} buffers
 * @property {import("../moves/control-channels.mjs").ControlChannels} control
 * @property {() => string} here where the program's code is
 * @property {() => import("../../agent/frames.mjs").PlaceFinder} hereLater the same
 * @property {(why: string) => never} refuse ends the run
 * @property {(name: string, act: () => void) => void} later does something as a task of its own
 * @property {(number: number, kind: number, value: unknown) => void} noted notes what is in a message that is sent
 * @property {(text: string) => void} note notes what happens to the thread
 * @property {AfterPorts} late what the thread has after its ports
 */

/** So many objects can't be in each other so deep that the other side couldn't read them. */
const FEW_OBJECTS = 100;

export class Ports {
  /** @type {WeakMap<object, KnownPort>} */
  #known = new EngineWeakMap();

  /** @type {(port: any) => void} is called for each port that this thread gets */
  onAdopted = () => {};

  /** @type {Map<number, any>} the ports that this thread has, by their numbers */
  mine = new Map();

  /** @type {KnownPort | undefined} of which the thread's code has got a message last, while its loop begins no more */
  latest = undefined;

  /** @param {PortContext} context */
  constructor(context) {
    this.context = context;
  }

  /** Nothing of an earlier run is left. */
  clear() {
    mapForEach(this.mine, (/** @type {any} */ port) => this.known(port).end());
    this.mine = new Map();
    this.latest = undefined;
    this.#known = new EngineWeakMap();
  }

  /** @param {unknown} port @returns {boolean} whether this thread has it */
  has(port) {
    return weakHas(this.#known, port);
  }

  /** @param {unknown} port @returns {KnownPort} of a port that this thread has */
  known(port) {
    return weakGet(this.#known, port);
  }

  /** @param {any} [made] a channel of node's @returns {{ port1: any, port2: any }} it, whose ports this thread has */
  channel(made = new EngineChannel()) {
    const { table, agent, refuse } = this.context;
    if (!table.hasRoom()) refuse("made more ports than a run of a program can have");
    const first = table.addPair(agent);
    this.adopt(made.port1, first);
    this.adopt(made.port2, first + 1);
    return made;
  }

  /** @param {any} port of node's that this thread has now @param {number} id */
  adopt(port, id) {
    this.#have(new KnownPort(port, id));
    this.onAdopted(port);
  }

  /**
   * Something has its messages by the hidden ports of threads.
   * @param {object} port what stands for a port
   * @param {(envelope: Envelope) => void} taker gets the messages
   * @returns {QueuedPort}
   */
  queued(port, taker) {
    const { table, agent } = this.context;
    const queued = new QueuedPort(port, table.addPair(agent), taker);
    this.#have(queued);
    return queued;
  }

  /** @param {KnownPort} known of this thread from now on */
  #have(known) {
    weakSet(this.#known, known.port, known);
    this.mine.set(known.id, known.port);
    this.context.table.give(known.id, this.context.agent);
  }

  /**
   * Something of the thread's gets a port's messages from now on.
   * @param {any} port
   * @param {(envelope: Envelope) => void} taker
   */
  serve(port, taker) {
    this.known(port).taker = taker;
    this.start(port);
  }

  /** @param {any} port that goes to another thread, or to this one once more */
  leave(port) {
    const { id } = this.known(port);
    this.mine.delete(id);
    this.#known.delete(port);
    this.context.table.give(id, NOBODYS);
    this.context.table.stop(id);
  }

  /** @param {any} port that stays in this thread @param {any} clone what stands for it from now on */
  clone(port, clone) {
    const { id } = this.known(port);
    this.leave(port);
    this.adopt(clone, id);
  }

  /**
   * @param {any[]} list what is transferred
   * @param {any} [source] the port that sends it
   * @returns {any[]} the ports in it
   * @throws {DOMException} if one of them can't be transferred
   */
  among(list, source) {
    const ports = list.filter((each) => this.has(each));
    demandOpen(ports, source, (each) => this.known(each).closed);
    return ports;
  }

  /**
   * Sends a message.
   * @param {any} port
   * @param {unknown} value
   * @param {unknown} transfer
   * @param {Function} [called] the function that the program's code has called; undefined: the thread itself sends
   * @param {number} [kind] one of `KIND`
   * @returns {boolean | undefined} whether the other side is there; undefined if this one is closed
   */
  send(port, value, transfer, called, kind = KIND.MESSAGE) {
    const { table, moves, buffers } = this.context;
    const { id, closed } = this.known(port);
    const list = transferredOf(transfer);
    demandTransferable(list, this.context.refuse);
    const ports = this.among(list, port);
    const walked = { objects: Infinity };
    const bare = sent(value, buffers, walked);
    if (closed && kind === KIND.MESSAGE) {
      // What is wrong with it is thrown, and what it has is given away, also if nobody can get it.
      post(new EngineChannel().port1, bare, list);
      ports.forEach((each) => this.leave(each));
      return undefined;
    }
    const peer = id ^ 1;
    // A message goes to a thread, or to a port that no thread has.
    const owner = table.owner(peer);
    const number = called === undefined ? moves.sendNow()
      : moves.send(called, owner === NOBODYS ? toPort(peer) : toThread(owner));
    const ids = ports.map((each) => this.known(each).id);
    this.context.noted(number, kind, bare);
    if (walked.objects <= FEW_OBJECTS) post(port, { value: bare, kind, number, ports, ids }, list);
    else {
      // The other side may be unable to read the value. What is known about the message comes by one of its own.
      post(port, { value: bare, ports }, list);
      post(port, { kind, number, ids });
    }
    for (let at = 0; at < ports.length; at += 1) this.leave(ports[at]);
    if (table.isClosed(peer)) return false;
    // Node gives up a message with the port that it goes to.
    if (ids.includes(peer)) ids.forEach((each) => this.#lose(each));
    if (table.isClosed(peer)) return true;
    if (kind === KIND.CLOSE) table.closeFrom(peer);
    else table.addWaiting(peer, 1);
    if (isUrgent(kind)) table.addUrgent(peer, 1);
    this.rouse(peer);
    return true;
  }

  /**
   * @param {any} port
   * @returns {Envelope | undefined} its next message, if one waits
   */
  take(port) {
    const { table, moves, buffers, control, note } = this.context;
    const known = this.known(port);
    const { id } = known;
    if (table.waiting(id) === 0) return undefined;
    if (known instanceof QueuedPort) control.take();
    const envelope = known.next();
    table.addWaiting(id, -1);
    if (envelope === undefined) return { value: undefined, kind: KIND.CLOSE, number: -1, ports: [], ids: [] };
    if (isUrgent(envelope.kind)) table.addUrgent(id, -1);
    if (envelope.isUnread) envelope.ids.forEach((each) => this.#lose(each));
    else envelope.ports.forEach((each, at) => this.adopt(each, envelope.ids[at]));
    moves.receive(envelope.number);
    if (envelope.isUnread) note(`gets messageerror, ${described(envelope.value).split("\n")[0]}`);
    else envelope.value = received(envelope.value, buffers);
    return envelope;
  }

  /** @param {number} id of a port that was transferred in a message that couldn't be read: node has closed it */
  #lose(id) {
    const { table } = this.context;
    table.close(id);
    if (table.isClosed(id ^ 1)) return;
    table.closeFrom(id ^ 1);
    this.rouse(id ^ 1);
  }

  /** @param {number} id of a port of this thread that has a queue @returns {Envelope[]} */
  queueOf(id) {
    const known = this.known(this.mine.get(id));
    return known instanceof QueuedPort ? known.queue : [];
  }

  /** @param {any} port whose messages are delivered from now on, unless it is closed */
  start(port) {
    const { id, closed } = this.known(port);
    if (!closed) this.context.table.start(id);
  }

  /** @param {any} port whose messages wait from now on */
  stop(port) {
    this.context.table.stop(this.known(port).id);
  }

  /** @param {any} port that has a message: what takes it, or its listeners, get it */
  deliver(port) {
    const known = this.known(port);
    const envelope = this.take(port);
    if (envelope === undefined) return;
    known.left -= 1;
    this.latest = known;
    known.scope.runInAsyncScope(() => {
      if (known.taker !== undefined) known.taker(envelope);
      else if (envelope.kind !== KIND.CLOSE) this.give(port, envelope);
      else if (!known.closed) this.closeNow(port);
    });
  }

  /** @param {any} _port @param {Envelope} _envelope a message that its listeners get now */
  give(_port, _envelope) {}

  /** @param {any} _port that is closed: its listeners learn that now */
  giveClose(_port) {}

  /** @param {any} port that this thread or the other side has closed */
  closeNow(port) {
    this.close(port);
    this.giveClose(port);
  }

  /** @param {any} port that is closed by this thread: the other side learns that after what was sent before */
  close(port) {
    const known = this.known(port);
    if (known.isGone) return;
    const { table } = this.context;
    known.closed = true;
    known.isClosing = false;
    known.refed = false;
    if (!table.isClosed(known.id ^ 1)) this.send(port, undefined, [], undefined, KIND.CLOSE);
    table.close(known.id);
  }

  /** @returns {any[]} the ports of this thread that have a message to be delivered, in the order of their numbers */
  ready() {
    const { table } = this.context;
    /** @type {number[]} */
    const ready = [];
    mapForEach(this.mine, (/** @type {any} */ port, /** @type {number} */ id) => {
      if (table.isReady(id) && !this.known(port).isClosing) ready.push(id);
    });
    return ready.sort((one, other) => one - other).map((id) => this.mine.get(id));
  }

  /**
   * @returns {any} the port that its listeners have closed while they had a message, if others wait: as in node, these
   * come before anything else
   */
  get closing() {
    const { latest } = this;
    return latest?.isClosing && latest.left > 0 && this.waiting(latest.port) > 0 ? latest.port : undefined;
  }

  /** @param {any} port of this thread @returns {number} how many messages wait there */
  waiting(port) {
    return this.context.table.waiting(this.known(port).id);
  }

  /** @returns {KnownPort[]} what is known of the ports that keep this thread alive */
  keeping() {
    /** @type {KnownPort[]} */
    const keeping = [];
    mapForEach(this.mine, (/** @type {any} */ port) => {
      const known = this.known(port);
      if (known.keeps) keeping.push(known);
    });
    return keeping;
  }

  /** @param {number} id of a port that has got a message */
  rouse(id) {
    const { table, moves, agent } = this.context;
    const owner = table.owner(id);
    if (owner !== NOBODYS && owner !== agent && table.isReady(id)) moves.wake(owner);
  }
}

/** @param {Ports} ports @returns {any} the class by which the program makes channels: node's own, but of the run */
export function channelClass(ports) {
  const MessageChannel = proxyOf(EngineChannel, {
    construct: (target, given, asked) => ports.channel(construct(target, given, asked)),
  });
  put(EngineChannel.prototype, "constructor", MessageChannel);
  return MessageChannel;
}

/**
 * `receiveMessageOnPort` of a program: it takes what has come by a port of the run.
 * @param {Ports} ports
 */
export const receiverOf = (ports) => (/** @type {any} */ given) => {
  if (!ports.has(given)) return receive(given);
  ports.context.moves.yield();
  const envelope = ports.take(given);
  if (envelope?.kind === KIND.CLOSE) ports.close(given);
  if (envelope === undefined || envelope.kind === KIND.CLOSE) return undefined;
  if (envelope.isUnread) throw envelope.value;
  return { message: envelope.value };
};
