// Right: Treiber's stack. A tag beside the head goes on with each change, so that an old head is never taken for a new.

export const setup = { agents: 3, buffers: [48], names: { HEAD: 0 } };

const HEAD = 0;
// Nodes have the numbers 1 to NODES; 0 is none.
const NEXT = 1;
const OWNERS = 6;
const NODES = 3;
const nodeOf = (head) => head % 8;
const changed = (head, node) => head - nodeOf(head) + 8 + node;

function push(words, node) {
  for (;;) {
    const head = Atomics.load(words, HEAD);
    Atomics.store(words, NEXT + node, nodeOf(head));
    if (Atomics.compareExchange(words, HEAD, head, changed(head, node)) === head) return;
  }
}

function pop(words) {
  for (;;) {
    const head = Atomics.load(words, HEAD);
    const node = nodeOf(head);
    if (node === 0) return 0;
    const next = Atomics.load(words, NEXT + node);
    if (Atomics.compareExchange(words, HEAD, head, changed(head, next)) === head) return node;
  }
}

function take(words) {
  const node = pop(words);
  if (node > 0 && Atomics.exchange(words, OWNERS + node, 1) !== 0) throw new Error(`node ${node} has two owners`);
  return node;
}

function give(words, node) {
  if (node === 0) return;
  Atomics.store(words, OWNERS + node, 0);
  push(words, node);
}

export const init = ([buffer]) => [3, 2, 1].forEach((node) => push(new Int32Array(buffer), node));

export default function agent({ buffers }) {
  const words = new Int32Array(buffers[0]);
  for (let time = 0; time < 2; time += 1) {
    const [one, other] = [take(words), take(words)];
    give(words, one);
    give(words, other);
  }
}

export const check = ([buffer]) => {
  const words = new Int32Array(buffer);
  const found = [];
  for (let node = pop(words); node > 0 && found.length <= NODES; node = pop(words)) found.push(node);
  return found.length === NODES && new Set(found).size === NODES;
};
