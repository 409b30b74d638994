// The threads of a program's run. A thread begins when another has started it, and ends by itself or by another one.
// Then those that it has started end too, and its ports are closed.

import { PHASE } from "../../memory/layout.mjs";

export class Threads {
  /** @type {(agent: number) => void} is called when a thread ends */
  onEnd = () => {};

  /**
   * @param {number} agent
   * @param {import("../../board/board.mjs").Board} board
   * @param {import("../../board/port-table.mjs").PortTable} table
   * @param {import("./moves.mjs").Moves} moves
   */
  constructor(agent, board, table, moves) {
    this.agent = agent;
    this.board = board;
    this.table = table;
    this.moves = moves;
  }

  /** @param {number} agent that joins the run */
  start(agent) {
    this.table.setParent(agent, this.agent);
    this.board.join(agent);
  }

  /** @param {number} agent @returns {boolean} whether its part in the run has begun */
  hasBegun(agent) {
    return this.table.hasBegun(agent);
  }

  /** @param {number} agent @returns {boolean} whether it hasn't ended */
  isAlive(agent) {
    return this.board.line.phase(agent) !== PHASE.FINISHED;
  }

  /**
   * Ends another thread, and those that it has started.
   * @param {number} agent
   * @returns {boolean} false if it had ended
   */
  end(agent) {
    if (!this.isAlive(agent)) return false;
    if (this.board.line.waitsInBlock(agent)) this.table.cut();
    this.closePorts(agent);
    this.endChildren(agent);
    this.board.line.become(agent, PHASE.FINISHED);
    this.board.answers.goesOn(agent);
    this.board.turn.wake(agent);
    return true;
  }

  /** @param {number} agent that ends */
  endChildren(agent) {
    for (let other = 1; other < this.board.joined; other += 1) {
      if (this.table.parent(other) === agent) this.end(other);
    }
  }

  /** @param {number} agent that ends: the other side of each of its ports learns that, after what was sent */
  closePorts(agent) {
    const { table, moves, board } = this;
    board.waiters?.endOf(agent);
    this.onEnd(agent);
    for (let port = 0; port < table.count; port += 1) {
      if (table.owner(port) !== agent || table.isClosed(port)) continue;
      table.close(port);
      const peer = port ^ 1;
      const other = table.owner(peer);
      if (other === agent || other < 0 || table.isClosed(peer)) continue;
      table.closeFrom(peer);
      if (table.isReady(peer) && other !== this.agent) moves.wake(other);
    }
  }
}
