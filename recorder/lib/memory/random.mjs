// The seeded generator that picks moves: xoshiro128**, started by splitmix32. Both are in the public domain; the same
// seed gives the same numbers on every machine. Its four words can be in shared memory, so that each agent with
// the turn draws from the same row.

// Agents may change what they find, so the engine's own functions are kept here, before.
const { floor, imul } = Math;

const WORD = 2 ** 32;

/** @param {number} start a whole number below 2^32 @returns {() => number} the next whole number below 2^32 */
function splitmix32(start) {
  let state = start >>> 0;
  return () => {
    state = (state + 0x9e3779b9) >>> 0;
    let mixed = state ^ (state >>> 16);
    mixed = imul(mixed, 0x21f0aaad);
    mixed ^= mixed >>> 15;
    mixed = imul(mixed, 0x735a2d97);
    return (mixed ^ (mixed >>> 15)) >>> 0;
  };
}

/** @param {number} number below 2^32, or its remainder is taken @returns {number} a word that no other number has */
export const mixedWord = (number) => splitmix32(number)();

/** @param {number} word @param {number} by */
const rotate = (word, by) => (word << by) | (word >>> (32 - by));

/** A generator of pseudo-random numbers, fixed by its words. */
export class Random {
  /** @param {Int32Array} words four of them, not all zero before the first number is drawn */
  constructor(words) {
    this.words = words;
  }

  /**
   * Starts the row of a seed.
   * @param {number} seed a whole number from 0 to 2^53 - 1
   */
  seed(seed) {
    const low = splitmix32(seed % WORD);
    const high = splitmix32(floor(seed / WORD));
    const { words } = this;
    // No two seeds start with the same words: the first number of each row shows its start.
    for (let at = 0; at < words.length; at += 1) words[at] = at < 2 ? low() : high();
    if ((words[0] | words[1] | words[2] | words[3]) === 0) words[0] = 1;
  }

  /**
   * Changes to another row of the same seed, which differs for each number.
   * @param {number} number
   */
  branch(number) {
    const mixed = splitmix32(number + 1);
    for (let at = 0; at < this.words.length; at += 1) this.words[at] ^= mixed();
    if ((this.words[0] | this.words[1] | this.words[2] | this.words[3]) === 0) this.words[0] = 1;
  }

  /**
   * Starts a row of a seed that has nothing in common with the seed's other rows. Rows that `branch` makes are alike in
   * part: their words differ by the same bits for every seed.
   * @param {number} seed a whole number from 0 to 2^53 - 1
   * @param {number} number a whole number below 2^32
   */
  seedApart(seed, number) {
    const low = splitmix32(seed % WORD)();
    const mixed = splitmix32(splitmix32(low ^ floor(seed / WORD))() ^ number);
    for (let at = 0; at < this.words.length; at += 1) this.words[at] = mixed();
    if ((this.words[0] | this.words[1] | this.words[2] | this.words[3]) === 0) this.words[0] = 1;
  }

  /** @returns {number} the next whole number below 2^32 */
  next() {
    const words = this.words;
    const answer = imul(rotate(imul(words[1], 5), 7), 9) >>> 0;
    const shifted = words[1] << 9;
    words[2] ^= words[0];
    words[3] ^= words[1];
    words[1] ^= words[2];
    words[0] ^= words[3];
    words[2] ^= shifted;
    words[3] = rotate(words[3], 11);
    return answer;
  }

  /** @param {number} count a whole number from 1 to 2^16 @returns {number} a whole number below the count */
  below(count) {
    return floor((this.next() * count) / WORD);
  }

  /** @returns {number} a number from 0, below 1 */
  fraction() {
    return this.next() / WORD;
  }
}
