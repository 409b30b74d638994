// Hidden ports between each two threads of a program. What is posted there waits until the other thread looks: no event
// loop takes it. Threads are started by them, and learn about buffers.

import threads from "node:worker_threads";
import { uncurried } from "../../primordials.mjs";
import { UNREAD, nextOf } from "./unread.mjs";

const { receiveMessageOnPort: receive } = threads;
const post = uncurried(threads.MessagePort.prototype.postMessage);

/** @typedef {import("node:worker_threads").MessagePort} MessagePort */
/** @typedef {Record<string, any>} ControlMessage what one thread hands to another */
/** @typedef {import("./unread.mjs").UnreadMessage} UnreadMessage */
/**
 * @typedef {{ program: string, args: string[] }} MainChannels the URL of a program's main module, and what it is given
 */
/**
 * @typedef {{ control: MessagePort, main: MainChannels }} NumberedThread `control` comes from the thread that has
 * started this one
 */

export class ControlChannels {
  /** @type {(MessagePort | undefined)[]} by the agents to which they lead */
  #peers = [];

  /** @type {Record<string, (item: any, value?: UnreadMessage) => void>} what is done with an item, by its kind */
  #takers = {};

  /** @type {MainChannels} */
  #main;

  /**
   * @param {NumberedThread} numbered what the thread got with its number
   * @param {MessagePort} port to the thread that has started this one
   * @param {import("../../board/board.mjs").Board} board
   */
  constructor({ control, main }, port, board) {
    this.control = control;
    this.port = port;
    this.board = board;
    this.#main = main;
  }

  /** @returns {MainChannels} the program of this run */
  get main() {
    this.#meet();
    return this.#main;
  }

  /**
   * @param {string} kind of items
   * @param {(item: any, value?: UnreadMessage) => void} take gets the value ahead of one, too
   */
  onItem(kind, take) {
    this.#takers[kind] = take;
  }

  /**
   * Waits until so many threads are ready. Meanwhile this thread keeps its turn.
   * @param {number} count
   */
  needs(count) {
    const { ready } = this.board;
    if (ready.count >= count) return;
    post(this.port, { more: count });
    ready.await(count);
  }

  /**
   * Hands an item to another thread.
   * @param {number} agent
   * @param {ControlMessage} item
   * @param {unknown[]} [transferred]
   */
  hand(agent, item, transferred = []) {
    this.#meet();
    post(this.#peers[agent], { ...item, run: this.board.run }, transferred);
  }

  /**
   * Hands an item to another thread, and a value ahead of it, which that thread may be unable to read.
   * @param {number} agent
   * @param {ControlMessage} item
   * @param {unknown} value
   */
  handWith(agent, item, value) {
    this.#meet();
    post(this.#peers[agent], { value, isAhead: true });
    this.hand(agent, item);
  }

  /** @param {ControlMessage} item for all other threads */
  handAll(item) {
    this.#meet();
    for (let agent = 0; agent < this.#peers.length; agent += 1) {
      const peer = this.#peers[agent];
      if (peer !== undefined) post(peer, { ...item, run: this.board.run });
    }
  }

  /** Takes what others have handed. */
  take() {
    this.#meet();
    for (let agent = 0; agent < this.#peers.length; agent += 1) {
      const peer = this.#peers[agent];
      if (peer !== undefined) this.#takeFrom(peer);
    }
  }

  /** @param {MessagePort} peer */
  #takeFrom(peer) {
    /** @type {UnreadMessage | undefined} */
    let ahead;
    for (let found = nextOf(peer); found !== undefined; found = nextOf(peer)) {
      if (UNREAD in found || found.message.isAhead) {
        ahead = found;
        continue;
      }
      // What another run has left belongs to no thread.
      if (found.message.run === this.board.run) this.#takers[found.message.kind](found.message, ahead);
      ahead = undefined;
    }
  }

  /** Takes the ports to threads that have come since, and the program, if it is another one. */
  #meet() {
    for (let found = receive(this.control); found !== undefined; found = receive(this.control)) {
      const { peer, port, main } = found.message;
      if (main === undefined) this.#peers[peer] = port;
      else this.#main = main;
    }
  }
}
