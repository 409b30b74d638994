// A list of whole numbers that grows.

export class NumberBuffer {
  constructor() {
    this.items = new Int32Array(1_024);
    this.length = 0;
  }

  /** @param {number} count for how many more there is to be room */
  reserve(count) {
    const needed = this.length + count;
    if (needed <= this.items.length) return;
    const more = new Int32Array(needed * 2);
    more.set(this.items);
    this.items = more;
  }

  /** @param {number} count how many more there will be @returns {number} where they begin */
  take(count) {
    this.reserve(count);
    const at = this.length;
    this.length += count;
    return at;
  }
}
