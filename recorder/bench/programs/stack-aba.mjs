// Wrong: the head of the stack has no tag, so a pop may find the same head again though the nodes below it differ.

export const setup = { agents: 3, buffers: [64] };

const HEAD = 0;
const FILLED = 1;
const NEXT = 2;
const OWNED = 8;

function push(words, node) {
  for (;;) {
    const head = Atomics.load(words, HEAD);
    Atomics.store(words, NEXT + node, head);
    if (Atomics.compareExchange(words, HEAD, head, node) === head) return;
  }
}

function pop(words) {
  for (;;) {
    const head = Atomics.load(words, HEAD);
    if (head === 0) return 0;
    const next = Atomics.load(words, NEXT + head);
    if (Atomics.compareExchange(words, HEAD, head, next) === head) return head;
  }
}

function take(words) {
  const node = pop(words);
  if (node > 0 && Atomics.exchange(words, OWNED + node, 1) !== 0) throw new Error(`node ${node} has two owners`);
  return node;
}

function give(words, node) {
  if (node === 0) return;
  Atomics.store(words, OWNED + node, 0);
  push(words, node);
}

export default function agent({ buffers, agent: self }) {
  const words = new Int32Array(buffers[0]);
  if (self === 0) {
    for (const node of [3, 2, 1]) push(words, node);
    Atomics.store(words, FILLED, 1);
    Atomics.notify(words, FILLED);
  } else {
    while (Atomics.load(words, FILLED) === 0) Atomics.wait(words, FILLED, 0);
  }
  for (let time = 0; time < 2; time += 1) {
    const one = take(words);
    const other = take(words);
    give(words, one);
    give(words, other);
  }
}
