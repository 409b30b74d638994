// A promise that is awaited, but not for ever.

import { Patience } from "./patience.mjs";

/**
 * The answer of a promise, or that it took too long.
 * @template T
 * @param {Promise<T>} promise
 * @param {number} seconds of which those count in which this process goes on
 * @returns {Promise<T | undefined>}
 */
export async function within(promise, seconds) {
  const patience = new Patience(seconds);
  /** @type {NodeJS.Timer | undefined} */
  let timer;
  const late = new Promise((done) => {
    const step = () => {
      timer = setTimeout(() => (patience.isOver() ? done(undefined) : step()), patience.step);
    };
    step();
  });
  try {
    return /** @type {T | undefined} */ (await Promise.race([promise, late]));
  } finally {
    clearTimeout(timer);
  }
}
