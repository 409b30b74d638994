// A list of free nodes in shared memory. The head has the first node's number in its lower four bits, and above them,
// if the list counts, how often it has changed. A node is the number of its word, which names the next one; 0 is none.
export const FREE = 0;

export class FreeList {
  constructor(words, { counts }) {
    this.words = words;
    this.counts = counts;
  }

  changed(head, node) {
    const was = Atomics.compareExchange(this.words, FREE, head, (this.counts ? (head & ~15) + 16 : 0) | node);
    return was === head;
  }

  pop() {
    for (;;) {
      const head = Atomics.load(this.words, FREE);
      const node = head & 15;
      if (node === 0) throw new Error("no node is free");
      const next = Atomics.load(this.words, node);
      if (this.changed(head, next)) return node;
    }
  }

  push(node) {
    for (;;) {
      const head = Atomics.load(this.words, FREE);
      Atomics.store(this.words, node, head & 15);
      if (this.changed(head, node)) return;
    }
  }
}
