// Messages and listeners that nobody serves. An agent never gets to its event loop, so its listeners never run. A
// message gets only to code that takes it at once, by `receiveMessageOnPort`.

import nodeModule from "node:module";
import {
  apply, construct, defineProperty, getOwnPropertyDescriptor, proxyOf, put, weakGet, weakSet,
} from "../primordials.mjs";
import { isCalledByAgents, sourceHere } from "./frames.mjs";
import { leadsAbroad, peerOf } from "./ordinary/given-to-threads.mjs";

const { WeakMap: EngineWeakMap } = globalThis;

/** @typedef {import("./ordinary/given-to-threads.mjs").ThreadsModule} ThreadsModule */
/** @typedef {import("./unseen.mjs").Unseen} Unseen */

/**
 * @typedef {object} AgentMessageContext
 * @property {() => boolean} isPlaying whether the agent has a part in a run now
 * @property {() => never} end ends the run, for what was noted
 */

const LISTENING = Object.freeze(["on", "once", "addListener", "addEventListener"]);
const HANDLERS = Object.freeze(["onmessage", "onmessageerror"]);

export class Messages {
  /** @param {Unseen} unseen @param {AgentMessageContext} serving @param {ThreadsModule} threads */
  constructor(unseen, serving, threads) {
    this.unseen = unseen;
    this.serving = serving;
    this.parentPort = threads.parentPort;
    /** @type {WeakMap<object, { left: number, place: string | undefined }>} messages that nobody has taken, by port */
    this.waiting = new EngineWeakMap();
    /** @type {object[]} the ports that have had messages in this run */
    this.ports = [];
    /** Whether a message was posted that nobody takes: the first one while the module is loaded counts for all. */
    this.hasPosted = false;
    this.#watchPorts(threads);
    this.#watchChannels(threads);
    this.#watchWorkers(threads);
  }

  /** A run begins. */
  begin() {
    if (this.ports.length === 0) return;
    this.waiting = new EngineWeakMap();
    this.ports = [];
  }

  /** Notes messages that were left when the agent's code has ended. */
  noteLeft() {
    for (let at = 0; at < this.ports.length; at += 1) {
      const { left, place } = weakGet(this.waiting, this.ports[at]);
      if (left > 0) this.unseen.add({ kind: "message", what: "MessagePort.postMessage", place });
    }
  }

  /** @param {ThreadsModule} threads */
  #watchPorts(threads) {
    const { prototype } = threads.MessagePort;
    this.#replace(prototype, "postMessage", (port) => this.#post(port));
    for (const name of LISTENING) {
      this.#replace(prototype, name, (port, type) => {
        if (type !== "close") this.#listens(`${this.#nameOf(port)}.${name}`);
      });
    }
    this.#watchHandlers(prototype);
    const receive = threads.receiveMessageOnPort;
    put(threads, "receiveMessageOnPort", (/** @type {any} */ port) => {
      const answer = receive(port);
      const waiting = weakGet(this.waiting, port);
      if (answer !== undefined && waiting !== undefined) waiting.left -= 1;
      return answer;
    });
  }

  /** @param {object} prototype */
  #watchHandlers(prototype) {
    for (const name of HANDLERS) {
      const found = getOwnPropertyDescriptor(prototype, name);
      if (found?.set === undefined) continue;
      const { set } = found;
      const listens = (/** @type {object} */ port) => this.#listens(`${this.#nameOf(port)}.${name}`);
      const setter = {
        /** @param {unknown} listener */
        set(listener) {
          if (listener !== null && listener !== undefined) listens(this);
          return apply(set, this, [listener]);
        },
      };
      found.set = setter.set;
      defineProperty(prototype, name, found);
    }
  }

  /**
   * A BroadcastChannel reaches other agents, and all other threads of this process.
   * @param {ThreadsModule} threads
   */
  #watchChannels(threads) {
    const Engine = threads.BroadcastChannel;
    const traps = {
      construct: (/** @type {Function} */ target, /** @type {unknown[]} */ given, /** @type {Function} */ asked) => {
        this.#acts("message", "new BroadcastChannel");
        return construct(target, given, asked === StandIn ? target : asked);
      },
    };
    /** @type {typeof Engine} */
    const StandIn = proxyOf(Engine, traps);
    put(threads, "BroadcastChannel", StandIn);
    put(globalThis, "BroadcastChannel", StandIn);
    this.#replace(Engine.prototype, "postMessage", () => this.#posts("BroadcastChannel.postMessage"));
    this.#replace(Engine.prototype, "addEventListener", () => this.#listens("BroadcastChannel.addEventListener"));
    this.#watchHandlers(Engine.prototype);
  }

  /** @param {ThreadsModule} threads */
  #watchWorkers(threads) {
    const { prototype } = threads.Worker;
    for (const name of ["on", "once", "addListener"]) {
      this.#replace(prototype, name, () => this.#listens(`Worker.${name}`));
    }
    this.#replace(prototype, "postMessage", () => this.#reaches("Worker.postMessage"));
    this.#replace(nodeModule, "register", () => this.#reaches("module.register"));
  }

  /** @param {string} what gets to another thread, of which nobody sees what it does */
  #reaches(what) {
    if (this.serving.isPlaying()) this.unseen.add({ kind: "thread", what, place: sourceHere() });
  }

  /**
   * Puts a method in the place of an owner's. It asks before that one is called.
   * @param {any} owner
   * @param {string} name
   * @param {(self: object, first: unknown) => void} ask
   */
  #replace(owner, name, ask) {
    const engine = owner[name];
    if (typeof engine !== "function") return;
    /** @type {Record<string, Function>} */
    const { [name]: method } = {
      /** @param {any[]} given */
      [name](...given) {
        if (isCalledByAgents(method)) ask(this, given[0]);
        return apply(engine, this, given);
      },
    };
    put(owner, name, method);
  }

  /** @param {object} port on which a message is posted */
  #post(port) {
    const peer = peerOf(port);
    if (peer === undefined && leadsAbroad(port)) {
      this.#reaches("MessagePort.postMessage");
    } else if (port === this.parentPort) {
      this.#posts("parentPort.postMessage");
    } else if (peer === undefined) {
      this.#acts("message", "MessagePort.postMessage");
    } else if (this.serving.isPlaying()) {
      const known = weakGet(this.waiting, peer);
      if (known === undefined) {
        weakSet(this.waiting, peer, { left: 1, place: sourceHere() });
        this.ports[this.ports.length] = peer;
      } else known.left += 1;
    }
  }

  /** @param {object} port */
  #nameOf(port) {
    return port === this.parentPort ? "parentPort" : "MessagePort";
  }

  /** @param {string} what posts a message that nobody takes */
  #posts(what) {
    const isLoading = this.unseen.notes === undefined;
    if (!isLoading) this.#acts("message", what);
    else if (!this.hasPosted) this.unseen.add({ kind: "message", what, place: sourceHere() }, true);
    this.hasPosted = true;
  }

  /** @param {string} what listens for what never comes */
  #listens(what) {
    if (this.serving.isPlaying()) this.#acts("listener", what);
    else this.unseen.add({ kind: "listener", what, place: sourceHere() }, true);
  }

  /** @param {"message" | "listener"} kind @param {string} what ends a run, if there is one */
  #acts(kind, what) {
    if (!this.serving.isPlaying()) return;
    this.unseen.add({ kind, what, place: sourceHere() });
    this.serving.end();
  }
}
