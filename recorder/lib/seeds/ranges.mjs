// Ranges of seeds: what a command line asks for, the shard of one machine, and the union of several.

/**
 * @typedef {object} SeedRange the seeds from the first to the last, both included
 * @property {number} first
 * @property {number} last
 */

/**
 * @typedef {object} Shard one of several parts that seeds are shared out among
 * @property {number} number which of them, from 1
 * @property {number} of how many there are
 */

/** @param {SeedRange} range @returns {number} how many seeds it has */
export const countOf = ({ first, last }) => last - first + 1;

/** @param {SeedRange} range @returns {string} as `seeds 501 to 750` */
export const rangeText = ({ first, last }) => (first === last ? `seed ${first}` : `seeds ${first} to ${last}`);

/** @param {SeedRange[]} ranges @returns {string} as `seeds 3 to 7 and seed 9` */
export const rangesText = (ranges) => ranges.map(rangeText).join(" and ");

/**
 * The seeds of a shard: the shards' seeds follow each other, and of two shards one has at most one seed more.
 * @param {SeedRange} range with at least as many seeds as there are shards
 * @param {Shard} shard
 * @returns {SeedRange}
 */
export function shardOf(range, { number, of }) {
  const left = countOf(range) % of;
  const each = (countOf(range) - left) / of;
  const before = number - 1;
  const first = range.first + before * each + Math.min(before, left);
  return { first, last: first + each - (number <= left ? 0 : 1) };
}

/** @param {SeedRange[]} ranges @returns {SeedRange[]} by their first seeds */
const sorted = (ranges) => [...ranges].sort((one, other) => one.first - other.first);

/**
 * The seeds of some ranges, each once.
 * @param {SeedRange[]} ranges
 * @returns {SeedRange[]} in ascending order, and none begins just after the end of another
 */
export function united(ranges) {
  /** @type {SeedRange[]} */
  const all = [];
  for (const { first, last } of sorted(ranges)) {
    const before = all.at(-1);
    if (before !== undefined && first <= before.last + 1) before.last = Math.max(before.last, last);
    else all.push({ first, last });
  }
  return all;
}

/**
 * The seeds of some ranges that aren't among those of others.
 * @param {SeedRange[]} ranges
 * @param {SeedRange[]} others
 * @returns {SeedRange[]} in ascending order
 */
export function seedsWithout(ranges, others) {
  let left = united(ranges);
  for (const { first, last } of others) {
    left = left.flatMap((range) => {
      if (last < range.first || range.last < first) return [range];
      const [before, behind] = [{ ...range, last: first - 1 }, { ...range, first: last + 1 }];
      return [before, behind].filter((part) => countOf(part) > 0);
    });
  }
  return left;
}
