// A stack of nodes, each with a word for the next one. The top has a number beside it that grows with each change, and
// may begin anew.

export const TOP = 0;

export class Stack {
  /**
   * @param {Int32Array} words the top, and a word for each node from 1 on
   * @param {number} nodes more than there are
   * @param {number} [numbers] how many the number beside the top may be
   */
  constructor(words, nodes, numbers = Infinity) {
    this.words = words;
    this.nodes = nodes;
    this.numbers = numbers;
  }

  #swap(top, node) {
    const number = (Math.floor(top / this.nodes) + 1) % this.numbers;
    return Atomics.compareExchange(this.words, TOP, top, number * this.nodes + node) === top;
  }

  pop() {
    for (;;) {
      const top = Atomics.load(this.words, TOP);
      const node = top % this.nodes;
      if (node === 0) return 0;
      if (this.#swap(top, Atomics.load(this.words, node))) return node;
    }
  }

  push(node) {
    for (;;) {
      const top = Atomics.load(this.words, TOP);
      Atomics.store(this.words, node, top % this.nodes);
      if (this.#swap(top, node)) return;
    }
  }
}
