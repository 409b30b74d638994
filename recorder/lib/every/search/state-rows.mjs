// Rows of numbers, all of one length, each once. A row's number is its position in the order in which they came.

/** @typedef {Uint8Array | Int32Array} StateRow */

export class StateRows {
  /**
   * @param {Uint8ArrayConstructor | Int32ArrayConstructor} Kind
   * @param {number} width how many numbers a row has
   */
  constructor(Kind, width) {
    this.Kind = Kind;
    this.width = width;
    this.count = 0;
    /** @type {StateRow} */
    this.items = new Kind(256 * Math.max(width, 1));
    this.slots = new Int32Array(1024).fill(-1);
  }

  /**
   * @param {StateRow} row
   * @param {number} [most] how many there may be
   * @returns {number} the row's number; if it is new, that is the count from before, or -1 if there is no room for it
   */
  put(row, most = Infinity) {
    const { width } = this;
    const mask = this.slots.length - 1;
    let slot = hashOf(row, 0, width) & mask;
    for (; this.slots[slot] !== -1; slot = (slot + 1) & mask) {
      if (this.#isAt(this.slots[slot] * width, row)) return this.slots[slot];
    }
    const number = this.count;
    if (number >= most) return -1;
    this.count += 1;
    if (this.count * width > this.items.length) this.#growItems();
    this.items.set(row, number * width);
    this.slots[slot] = number;
    if (this.count * 2 > this.slots.length) this.#growSlots();
    return number;
  }

  /** @param {number} from @param {StateRow} row @returns {boolean} whether the row is there */
  #isAt(from, row) {
    const { items, width } = this;
    for (let at = 0; at < width; at += 1) if (items[from + at] !== row[at]) return false;
    return true;
  }

  #growItems() {
    const grown = new this.Kind(this.items.length * 2);
    grown.set(this.items);
    this.items = grown;
  }

  #growSlots() {
    const { count, items, width } = this;
    const slots = new Int32Array(this.slots.length * 2).fill(-1);
    const mask = slots.length - 1;
    for (let number = 0; number < count; number += 1) {
      let slot = hashOf(items, number * width, width) & mask;
      while (slots[slot] !== -1) slot = (slot + 1) & mask;
      slots[slot] = number;
    }
    this.slots = slots;
  }
}

/** @param {StateRow} items @param {number} from @param {number} width @returns {number} */
function hashOf(items, from, width) {
  let hash = 0x811c9dc5;
  for (let at = 0; at < width; at += 1) {
    hash = Math.imul(hash ^ items[from + at], 0x01000193);
    hash ^= hash >>> 15;
  }
  hash = Math.imul(hash ^ (hash >>> 16), 0x85ebca6b);
  return (hash ^ (hash >>> 13)) >>> 0;
}

/** A list of numbers that grows. */
export class NumberList {
  constructor() {
    this.items = new Int32Array(1024);
    this.count = 0;
  }

  /** @param {number} number */
  push(number) {
    if (this.count === this.items.length) {
      const grown = new Int32Array(this.count * 2);
      grown.set(this.items);
      this.items = grown;
    }
    this.items[this.count] = number;
    this.count += 1;
  }
}

/**
 * A list of numbers, once for each different one. All come of the first one, which is empty.
 */
export class Lists {
  constructor() {
    /** @type {{ members: number[], longer: Map<number, number> }[]} by their numbers */
    this.all = [{ members: [], longer: new Map() }];
  }

  /** @param {number} number of a list @returns {readonly number[]} */
  members(number) {
    return this.all[number].members;
  }

  /** @param {number} number of a list @param {number} member @returns {number} of that list with one more at its end */
  with(number, member) {
    const { members, longer } = this.all[number];
    let found = longer.get(member);
    if (found === undefined) {
      found = this.all.length;
      this.all.push({ members: [...members, member], longer: new Map() });
      longer.set(member, found);
    }
    return found;
  }

  /**
   * @param {number} number of a list
   * @param {(member: number) => boolean} stays
   * @returns {number} of those that stay
   */
  kept(number, stays) {
    let kept = 0;
    const { members } = this.all[number];
    for (let at = 0; at < members.length; at += 1) if (stays(members[at])) kept = this.with(kept, members[at]);
    return kept;
  }
}
