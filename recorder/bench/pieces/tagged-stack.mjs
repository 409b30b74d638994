// Right: a stack of spare nodes, whose head has a tag of 16 bits. One agent keeps two nodes, and swaps them often.

export const setup = { agents: 2, buffers: [32], names: { HEAD: 0 } };

// The number of the first node, and 8 times the tag, which goes on with each change.
const HEAD = 0;
// Nodes have the numbers 1 to NODES.
const NEXT = 1;
const NODES = 6;
const TAG_BITS = 16;

/** An agent's view of the stack. It goes by the head that it has seen last, until a change of it fails. */
class Stack {
  constructor(words) {
    this.words = words;
    this.head = Atomics.load(words, HEAD);
  }

  change(node) {
    const changed = 8 * (((this.head >> 3) + 1) % 2 ** TAG_BITS) + node;
    const found = Atomics.compareExchange(this.words, HEAD, this.head, changed);
    const isMade = found === this.head;
    this.head = isMade ? changed : found;
    return isMade;
  }

  push(node) {
    do Atomics.store(this.words, NEXT + node, this.head % 8); while (!this.change(node));
  }

  pop(kept) {
    let node = this.head % 8;
    while (!this.change(Atomics.load(this.words, NEXT + node))) node = this.head % 8;
    if (node === 0 || kept.includes(node)) throw new Error(`it takes node ${node}, and keeps ${kept}`);
    return node;
  }
}

export const init = ([buffer]) => {
  const stack = new Stack(new Int32Array(buffer));
  for (let node = NODES; node > 0; node -= 1) stack.push(node);
};

export default function agent({ buffers, agent: self }) {
  const stack = new Stack(new Int32Array(buffers[0]));
  const kept = [];
  for (let time = 0; time < (self === 0 ? 40 : 30); time += 1) {
    const top = stack.pop(kept);
    if (self === 0) kept.push(stack.pop(kept));
    if (kept.length > 2) stack.push(kept.shift());
    stack.push(top);
  }
}

export const check = ([buffer]) => {
  const next = new Int32Array(buffer);
  const found = [];
  for (let node = next[HEAD] % 8; node > 0 && found.length < NODES; node = next[NEXT + node]) found.push(node);
  return found.length === NODES - 2 && new Set(found).size === found.length;
};
