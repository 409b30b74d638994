// In which order the agents of a module begin, and when. As a rule each runs up to its first call in turn, before any
// call is made. In some seeds their order is drawn. In some of these an agent may begin after others have made a few
// calls. That comes from the seed alone, so it is the same if the run is made again by a row.

import { WORD } from "../../memory/layout.mjs";
import { Random } from "../../memory/random.mjs";

const { Int32Array } = globalThis;

/** The number of the row of random numbers by which that is drawn: other rows have smaller ones. */
const STARTS = 2 ** 20;

/** Of so many seeds one has a drawn order; and of so many one has late agents. */
const ORDERED = 4;
const ITS_ORDERED = 2;
const LATE = 16;
const ITS_LATE = 14;

/** An agent that begins late does so at most so many moves after the one before. */
const MOST_MOVES = 24;

export class Starts {
  #seed = -1;

  /**
   * @param {Int32Array} words of the board
   * @param {{ agents: number, starts?: number, inTurn?: boolean }} rules how many agents there are, how many of them
   * begin by themselves, and whether these always do so in turn
   * @param {() => number} seedOf the seed of the run
   */
  constructor(words, { agents: all, starts: agents = all, inTurn = false }, seedOf) {
    this.words = words;
    /** How many begin by themselves. */
    this.agents = agents;
    this.inTurn = inTurn;
    this.seedOf = seedOf;
    // These are made once: later, an agent's code may have replaced what makes them.
    this.random = new Random(new Int32Array(4));
    /** The agents in their order, and for each how many moves come before it begins, if others can move. */
    this.order = new Int32Array(agents);
    this.moves = new Int32Array(agents);
  }

  /** A run begins: no agent has begun. */
  begin() {
    this.words[WORD.STARTED] = 0;
  }

  /** Whether all agents have begun. */
  get areAll() {
    return this.words[WORD.STARTED] >= this.agents;
  }

  /** Whether the next agent begins now, though others can move. */
  get isDue() {
    const { moves, words } = this;
    this.#draw();
    return moves[words[WORD.STARTED]] <= words[WORD.MOVES];
  }

  /** @returns {number} the next agent, which begins now */
  next() {
    const { order, words } = this;
    this.#draw();
    words[WORD.STARTED] += 1;
    return order[words[WORD.STARTED] - 1];
  }

  /** @param {number} agent @returns {boolean} whether it has begun */
  hasBegun(agent) {
    this.#draw();
    for (let place = this.words[WORD.STARTED]; place < this.agents; place += 1) {
      if (this.order[place] === agent) return false;
    }
    return true;
  }

  /** The order of the run's seed. */
  #draw() {
    const seed = this.words[WORD.IS_PILOT] === 1 ? 0 : this.seedOf();
    if (seed === this.#seed) return;
    this.#seed = seed;
    for (let place = 0; place < this.agents; place += 1) {
      this.order[place] = place;
      this.moves[place] = 0;
    }
    if (this.inTurn || seed % ORDERED !== ITS_ORDERED) return;
    this.random.seed(seed);
    this.random.branch(STARTS);
    this.#drawOrder();
    if (seed % LATE === ITS_LATE) this.#drawMoves();
  }

  #drawOrder() {
    const { order, random } = this;
    for (let left = this.agents; left > 1; left -= 1) {
      const other = random.below(left);
      const last = order[left - 1];
      order[left - 1] = order[other];
      order[other] = last;
    }
  }

  #drawMoves() {
    const { moves, random } = this;
    for (let place = 1; place < this.agents; place += 1) {
      moves[place] = moves[place - 1] + (random.below(2) === 0 ? 0 : 1 + random.below(MOST_MOVES));
    }
  }
}
