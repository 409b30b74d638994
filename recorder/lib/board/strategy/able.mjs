// The agents that can move, as a list that is filled anew for each draw.

const { Int32Array } = globalThis;

export class Able {
  /** @param {number} agents how many there are */
  constructor(agents) {
    this.agents = new Int32Array(agents);
    this.count = 0;
  }

  /** Nobody can move. */
  clear() {
    this.count = 0;
  }

  /** @param {number} agent that can move */
  add(agent) {
    this.agents[this.count] = agent;
    this.count += 1;
  }

  /** @param {number} agent that is left out, if it is there */
  remove(agent) {
    const place = this.place(agent);
    if (place < 0) return;
    this.count -= 1;
    for (let at = place; at < this.count; at += 1) this.agents[at] = this.agents[at + 1];
  }

  /** @param {number} agent @returns {number} its position in the list, or -1 */
  place(agent) {
    for (let at = 0; at < this.count; at += 1) {
      if (this.agents[at] === agent) return at;
    }
    return -1;
  }
}
