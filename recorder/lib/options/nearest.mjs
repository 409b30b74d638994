// Which known name was meant by one that isn't known.

/**
 * A name without what is easily mistaken: its capitals, and what is between its words.
 * @param {string} name
 */
const plainOf = (name) => name.toLowerCase().replaceAll(/[^a-z0-9]/g, "");

/**
 * How many letters must be put in, left out, changed or swapped with the next to make one word another.
 * @param {string} one
 * @param {string} other
 * @returns {number}
 */
function distance(one, other) {
  const rows = [Array.from({ length: other.length + 1 }, (_, at) => at)];
  for (let i = 1; i <= one.length; i += 1) {
    const [above, before] = [rows[i - 1], rows[i - 2]];
    const row = [i];
    for (let j = 1; j <= other.length; j += 1) {
      const changed = above[j - 1] + (one[i - 1] === other[j - 1] ? 0 : 1);
      row[j] = Math.min(above[j] + 1, row[j - 1] + 1, changed);
      const isSwapped = i > 1 && j > 1 && one[i - 1] === other[j - 2] && one[i - 2] === other[j - 1];
      if (isSwapped) row[j] = Math.min(row[j], before[j - 2] + 1);
    }
    rows.push(row);
  }
  return rows[one.length][other.length];
}

// How many letters of three may be wrong, and how few make a part of a name, or a slip in one.
const ONE_OF = 3;
const LEAST_PART = 3;
const LEAST_SLIP = 4;

/**
 * How far a name is from a known one; Infinity: it is another word.
 * @param {string} plain
 * @param {string} known
 */
function farness(plain, known) {
  const isPart = known.includes(plain) ? plain.length >= LEAST_PART : plain.startsWith(known);
  if (isPart && plain !== known) return 0.5;
  const letters = distance(plain, known);
  return letters <= Math.max(1, Math.floor(plain.length / ONE_OF)) ? letters : Infinity;
}

/**
 * The known name that is nearest to another one.
 * @param {string} name
 * @param {string[]} known
 * @returns {string | undefined} undefined if none is near
 */
export function nearest(name, known) {
  const plain = plainOf(name);
  const far = known.map((each) => farness(plain, plainOf(each)));
  const least = Math.min(...far);
  return least === Infinity ? undefined : known[far.indexOf(least)];
}

/**
 * The known name that a name becomes if one slip in it is mended. A slip is in its capitals, in what is between its
 * words, or in one letter that isn't the first. So it is much nearer than `nearest` asks for: else a name may well mean
 * something of its own.
 * @param {string} name
 * @param {string[]} known
 * @returns {string | undefined}
 */
export function slipOf(name, known) {
  const plain = plainOf(name);
  return known.find((each) => {
    const letters = distance(plain, plainOf(each));
    return letters === 0 || (letters === 1 && plain.length >= LEAST_SLIP && plain[0] === each[0]);
  });
}

/**
 * What is said about a name that isn't known: the nearest one, or else all that there are.
 * @param {string} name
 * @param {string[]} known
 * @returns {string}
 */
export function meant(name, known) {
  const near = nearest(name, known);
  return near === undefined ? `there are ${known.join(", ")}` : `is ${near} meant?`;
}
