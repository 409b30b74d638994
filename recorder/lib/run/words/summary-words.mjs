// Numbers, as a summary spells them, and what several messages say.

/** Why a run of a program that gets real answers may be another one when it is made once more. */
export const OTHER_INPUT = "its input may have been different";

/** How often such a run is made once more, until it goes the same way. */
export const TIMES_TRIED = 3;

/** @param {number} count @returns {string} as `9,432` */
export const digits = (count) => String(count).replaceAll(/\B(?=([0-9]{3})+$)/g, ",");

/**
 * @param {number} count
 * @param {string} one
 * @param {string} [several] if it isn't `one` and an s
 * @returns {string} as `1 run`, `2 runs`
 */
export const countText = (count, one, several = `${one}s`) => `${digits(count)} ${count === 1 ? one : several}`;

/**
 * The first entries as lines, and how many more there are.
 * @template T
 * @param {T[]} entries
 * @param {number} most how many lines
 * @param {(entry: T) => string} line
 * @returns {string[]}
 */
export function listed(entries, most, line) {
  const lines = entries.slice(0, most).map(line);
  return entries.length > most ? [...lines, `and ${digits(entries.length - most)} more`] : lines;
}
