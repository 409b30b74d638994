// A race by design: the stack's top has a number that grows, but the next node is read ordinarily, while the node may
// be somebody's. What was read is thrown away, since the compareExchange fails; by ECMA-262 the read races.

export const setup = { agents: 2, buffers: [4, 2] };

const NODES = 256;

// Node 1 is alone on the stack; a byte for each node holds the next one.
export function init(buffers) {
  new Int32Array(buffers[0])[0] = 1;
}

const changed = (top, node) => top - (top % NODES) + NODES + node;

function pop(tops, nexts) {
  for (;;) {
    const top = Atomics.load(tops, 0);
    if (top % NODES === 0) return 0;
    const next = nexts[top % NODES];
    if (Atomics.compareExchange(tops, 0, top, changed(top, next)) === top) return top % NODES;
  }
}

function push(tops, nexts, node) {
  for (;;) {
    const top = Atomics.load(tops, 0);
    nexts[node] = top % NODES;
    if (Atomics.compareExchange(tops, 0, top, changed(top, node)) === top) return;
  }
}

export default function agent({ buffers }) {
  const tops = new Int32Array(buffers[0]);
  const nexts = new Uint8Array(buffers[1]);
  const node = pop(tops, nexts);
  if (node !== 0) push(tops, nexts, node);
}

export const known = { endings: ["finished", "race"], races: [["nexts\\[node\\] = top", "const next = nexts"]] };
