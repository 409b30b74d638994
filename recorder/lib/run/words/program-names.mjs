// The threads and blocks of a program, as texts about its runs name them. A thread goes by its file and where it was
// started, a block by where its memory was made.

/**
 * @typedef {object} ProgramNames
 * @property {string[]} threads by their numbers: the file, and where it was started; empty: the thread has no name
 * @property {string[]} blocks by their numbers: file and line where the memory was made; empty: it isn't known
 */

/**
 * The names of blocks, by the places where their memory was made.
 * @param {string[]} places file, line and column; empty: it isn't known
 * @returns {string[]} file and line, with a number if several were made at one line
 */
export function blockNames(places) {
  const lines = places.map((place) => place.replace(/:\d+$/, ""));
  /** @type {Map<string, number>} */
  const counts = new Map();
  const numbers = lines.map((line) => {
    const number = (counts.get(line) ?? 0) + 1;
    counts.set(line, number);
    return number;
  });
  const isOnly = (/** @type {string} */ line) => line === "" || counts.get(line) === 1;
  return lines.map((line, block) => (isOnly(line) ? line : `${line}, number ${numbers[block]}`));
}

/** A mention of a thread; of a block; and of an element by its view's name, which has the block's number. */
const MENTION = /\bagent (\d+)(?= )|\bblock (\d+)\b|\b[A-Z]\w*_b(\d+)(?:_\w+)?\[\d+\]/g;

/**
 * A text in which the first mention of each thread and block has its name.
 * @param {string} text
 * @param {ProgramNames} names
 * @returns {string}
 */
export function namedText(text, { threads, blocks }) {
  const known = new Set();
  /** @type {(found: string, key: string, name?: string) => string} */
  const named = (found, key, name = "") => {
    if (name === "" || known.has(key)) return found;
    known.add(key);
    return `${found} (${name})`;
  };
  return text.replace(MENTION, (found, agent, block, viewed) => {
    if (agent !== undefined) return named(found, `agent ${agent}`, threads[agent]);
    const number = block ?? viewed;
    return named(found, `block ${number}`, blocks[number]);
  });
}
