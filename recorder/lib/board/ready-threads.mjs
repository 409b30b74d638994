// How many threads of a program are ready to begin. The thread of their group counts them.

import { WORD } from "../memory/layout.mjs";

const { load, store, wait, notify } = Atomics;

export class ReadyThreads {
  /** @param {Int32Array} words of the board */
  constructor(words) {
    this.words = words;
  }

  /** @returns {number} */
  get count() {
    return load(this.words, WORD.THREADS);
  }

  set count(count) {
    store(this.words, WORD.THREADS, count);
    notify(this.words, WORD.THREADS);
  }

  /** @param {number} count until so many are ready, the thread that calls this sleeps */
  await(count) {
    for (let there = this.count; there < count; there = this.count) wait(this.words, WORD.THREADS, there);
  }
}
