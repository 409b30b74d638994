// What all threads of a program know about its ports: whose each is, how many messages wait there, and whether it is
// started or closed. Only the thread that has the turn changes it. The two ports of a channel have the numbers 2n and
// 2n + 1.

import { SCRIPT_LIMITS } from "../../script/limits.mjs";

const { Int32Array, SharedArrayBuffer } = globalThis;

const MOST_PORTS = 8_192;
const COUNT = 0;
const CUT = 1;
const PARENTS = 2;
const HEAD = PARENTS + SCRIPT_LIMITS.agents;
const EACH = 5;
const OWNER = 0;
const WAITING = 1;
const STATE = 2;
const NAME = 3;
const URGENT = 4;

// Set beside the number of the agent that has started a thread.
const BEGUN = 64;

const STARTED = 1;
const CLOSED = 2;

// The last message that it has is that the other side was closed.
const CLOSING = 4;

/** In place of the agent that owns a port: the port is being sent in a message. */
export const NOBODYS = -1;

export class PortTable {
  /** @returns {SharedArrayBuffer} */
  static memory() {
    return new SharedArrayBuffer((HEAD + MOST_PORTS * EACH) * 4);
  }

  /** @param {SharedArrayBuffer} memory */
  constructor(memory) {
    this.words = new Int32Array(memory);
  }

  /** A run begins. */
  begin() {
    this.words[COUNT] = 0;
    this.words[CUT] = 0;
  }

  /** A thread was ended while it waited in a call of Atomics. */
  cut() {
    this.words[CUT] = 1;
  }

  /** @returns {boolean} whether one was */
  isCut() {
    return this.words[CUT] === 1;
  }

  /** @returns {number} how many there are */
  get count() {
    return this.words[COUNT];
  }

  /** @returns {boolean} whether there is room for another channel */
  hasRoom() {
    return this.words[COUNT] + 2 <= MOST_PORTS;
  }

  /** @param {number} agent @returns {number} the number of the first of two new ports of an agent */
  addPair(agent) {
    const { words } = this;
    const first = words[COUNT];
    words[COUNT] += 2;
    for (let port = first; port < first + 2; port += 1) {
      words[HEAD + port * EACH + OWNER] = agent;
      words[HEAD + port * EACH + WAITING] = 0;
      words[HEAD + port * EACH + STATE] = 0;
      words[HEAD + port * EACH + NAME] = 0;
      words[HEAD + port * EACH + URGENT] = 0;
    }
    return first;
  }

  /** @param {number} port @returns {number} */
  owner(port) {
    return this.words[HEAD + port * EACH + OWNER];
  }

  /** @param {number} port @param {number} agent whose it is from now on, or `NOBODYS` */
  give(port, agent) {
    this.words[HEAD + port * EACH + OWNER] = agent;
  }

  /** @param {number} agent that was started by another one @param {number} parent */
  setParent(agent, parent) {
    this.words[PARENTS + agent] = parent;
  }

  /** @param {number} agent @returns {number} the agent that has started it; `NOBODYS` for the first one */
  parent(agent) {
    return agent === 0 ? NOBODYS : this.words[PARENTS + agent] & ~BEGUN;
  }

  /** @param {number} agent whose part in the run begins */
  begins(agent) {
    this.words[PARENTS + agent] |= BEGUN;
  }

  /** @param {number} agent @returns {boolean} whether its part has begun */
  hasBegun(agent) {
    return (this.words[PARENTS + agent] & BEGUN) !== 0;
  }

  /** @param {number} port @returns {number} how many messages wait there */
  waiting(port) {
    return this.words[HEAD + port * EACH + WAITING];
  }

  /** @param {number} port @param {number} more messages, or fewer */
  addWaiting(port, more) {
    this.words[HEAD + port * EACH + WAITING] += more;
  }

  /** @param {number} port @param {number} more messages that make all be delivered, also if the port isn't started */
  addUrgent(port, more) {
    this.words[HEAD + port * EACH + URGENT] += more;
  }

  /** @param {number} port @param {number} name a number that channels of one name have, not 0 */
  setName(port, name) {
    this.words[HEAD + port * EACH + NAME] = name;
  }

  /** @param {number} port @returns {number} */
  name(port) {
    return this.words[HEAD + port * EACH + NAME];
  }

  /** @param {number} port @returns {boolean} */
  isStarted(port) {
    return (this.words[HEAD + port * EACH + STATE] & STARTED) !== 0;
  }

  /** @param {number} port @returns {boolean} */
  isClosed(port) {
    return (this.words[HEAD + port * EACH + STATE] & CLOSED) !== 0;
  }

  /** @param {number} port whose messages are delivered from now on */
  start(port) {
    this.words[HEAD + port * EACH + STATE] |= STARTED;
  }

  /** @param {number} port whose messages wait from now on */
  stop(port) {
    this.words[HEAD + port * EACH + STATE] &= ~STARTED;
  }

  /** @param {number} port */
  close(port) {
    const { words } = this;
    words[HEAD + port * EACH + STATE] = CLOSED;
  }

  /** @param {number} port whose other side is closed: that is its last message */
  closeFrom(port) {
    this.addWaiting(port, 1);
    this.words[HEAD + port * EACH + STATE] |= CLOSING;
  }

  /**
   * Whether a message of a port can be delivered by its owner's event loop. The message that the other side was closed
   * is delivered also if the port isn't started.
   * @param {number} port
   */
  isReady(port) {
    const waiting = this.waiting(port);
    if (waiting > 0 && (this.isStarted(port) || this.words[HEAD + port * EACH + URGENT] > 0)) return true;
    return waiting === 1 && (this.words[HEAD + port * EACH + STATE] & CLOSING) !== 0;
  }
}
