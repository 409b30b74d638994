// What agents that work by turns have come to: a word that each of them adds to. It is right.

/** @param {Int32Array} stage @param {number} wanted waits until so many have gone on */
export function reach(stage, wanted) {
  for (let seen = Atomics.load(stage, 0); seen < wanted; seen = Atomics.load(stage, 0)) Atomics.wait(stage, 0, seen);
}

/** @param {Int32Array} stage */
export function goOn(stage) {
  Atomics.add(stage, 0, 1);
  Atomics.notify(stage, 0);
}
