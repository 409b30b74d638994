// In which places ordinary accesses note their lines of code, in runs that are made for these. To find a line takes
// long, so only the first accesses of such a run note theirs, and those in places where unordered accesses were found.
// In shared memory: places next to each other, and some others, count as one.

const { imul } = Math;
const { SharedArrayBuffer, Uint8Array } = globalThis;

const BITS = 16;

/** So many bytes next to each other are one place: two to the power of it. */
const NEAR_BITS = 3;

/** An access of more places than these is noted anyway: there are few. */
const MOST_PLACES = 64;

/** @param {number} block @param {number} near @returns {number} */
const placeOf = (block, near) => imul(imul(block, 0x85ebca6b) ^ near, 0x9e3779b1) >>> (32 - BITS);

export class NotedPlaces {
  /** @returns {SharedArrayBuffer} */
  static memory() {
    return new SharedArrayBuffer(2 ** BITS);
  }

  /** @param {SharedArrayBuffer} memory */
  constructor(memory) {
    this.noted = new Uint8Array(memory);
  }

  /** There are none. */
  clear() {
    this.noted.fill(0);
  }

  /** @param {number} block @param {number} from the first byte @param {number} to the byte behind the last one */
  add(block, from, to) {
    const last = (to - 1) >>> NEAR_BITS;
    for (let near = from >>> NEAR_BITS; near <= last; near += 1) this.noted[placeOf(block, near)] = 1;
  }

  /**
   * @param {number} block
   * @param {number} from as above
   * @param {number} to
   * @returns {boolean} whether one of them is there
   */
  has(block, from, to) {
    const first = from >>> NEAR_BITS;
    const last = (to - 1) >>> NEAR_BITS;
    if (last - first >= MOST_PLACES) return true;
    for (let near = first; near <= last; near += 1) if (this.noted[placeOf(block, near)] === 1) return true;
    return false;
  }
}
