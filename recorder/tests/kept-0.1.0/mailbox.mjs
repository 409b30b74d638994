// A mailbox with one place: a second message takes the place of the first.

const [STATE, VALUE] = [0, 1];
const [EMPTY, FULL] = [0, 1];

/** @param {Int32Array} words @param {number} value */
export function send(words, value) {
  Atomics.store(words, VALUE, value);
  Atomics.store(words, STATE, FULL);
  Atomics.notify(words, STATE, 1);
}

/** @param {Int32Array} words @returns {number} */
export function receive(words) {
  while (Atomics.compareExchange(words, STATE, FULL, EMPTY) !== FULL) Atomics.wait(words, STATE, EMPTY);
  return Atomics.load(words, VALUE);
}
