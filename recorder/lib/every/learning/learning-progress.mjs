// What a thread that learns shows while it works.

/** By its words: how often the agents' code was called, how many states there are, and which part of it runs now. */
export const PROGRESS = Object.freeze({ CALLS: 0, STATES: 1, RUNS: 2, WORDS: 3 });

/** Parts of the agents' code. */
export const PART = Object.freeze({ NONE: 0, AGENT: 1, INIT: 2, CHECK: 3, MODULE: 4 });

/** @param {Int32Array} words @returns {(part: number) => void} shows that a part begins to run, or that none does */
export const showing = (words) => (part) => {
  words[PROGRESS.CALLS] += 1;
  words[PROGRESS.RUNS] = part;
};
