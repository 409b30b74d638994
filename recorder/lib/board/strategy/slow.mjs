// A slow agent: now and then one that can move is left out of the next few draws, if others can move. So a thread can
// rest for a while between two of its moves, and the others make many moves, however a strategy draws.

import { NOBODY, WORD } from "../../memory/layout.mjs";

/** In what share of the draws in which no agent is slow one becomes slow. */
const BECOMES = 0.2;

/** For how many draws it is slow. */
const LEAST = 2;
const LENGTHS = 16;

export class Slow {
  /** @param {Int32Array} words of the board @param {import("../../memory/random.mjs").Random} random */
  constructor(words, random) {
    this.words = words;
    this.random = random;
  }

  /** A run begins. */
  begin() {
    this.words[WORD.SLOW] = NOBODY;
    this.words[WORD.SLOW_FOR] = 0;
  }

  /** @param {import("./able.mjs").Able} able those that can move: the slow one is left out, if there are others */
  hold(able) {
    const { words, random } = this;
    if (able.count < 2) return;
    if (words[WORD.SLOW_FOR] === 0) {
      if (random.fraction() >= BECOMES) return;
      words[WORD.SLOW] = able.agents[random.below(able.count)];
      words[WORD.SLOW_FOR] = LEAST + random.below(LENGTHS);
    }
    words[WORD.SLOW_FOR] -= 1;
    able.remove(words[WORD.SLOW]);
  }
}
