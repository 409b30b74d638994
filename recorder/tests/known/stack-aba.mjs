// Wrong: a node that comes back to the top makes a late compareExchange succeed, though its next one is somebody's.

export const setup = { agents: 2, buffers: [12, 3] };

const TOP = 0;
const IS_MINE = 1;

// The nodes are 1 and 2; a word for each holds the next one.
export function init(buffers) {
  new Int32Array(buffers[0]).set([1, 2, 0]);
}

function pop(words) {
  const top = Atomics.load(words, TOP);
  if (top === 0) return 0;
  const next = Atomics.load(words, top);
  return Atomics.compareExchange(words, TOP, top, next) === top ? top : 0;
}

/** Takes all, and gives the first one back. */
function takeAllButFirst(words, mine) {
  const first = Atomics.exchange(words, TOP, 0);
  if (first === 0) return;
  for (let node = Atomics.load(words, first); node !== 0; node = Atomics.load(words, node)) mine[node] = IS_MINE;
  Atomics.store(words, first, 0);
  if (Atomics.compareExchange(words, TOP, 0, first) !== 0) throw new Error("somebody else has pushed");
}

export default function agent({ buffers, agent }) {
  const words = new Int32Array(buffers[0]);
  if (agent === 0) pop(words);
  else takeAllButFirst(words, new Uint8Array(buffers[1]));
}

export function check(buffers) {
  const [top] = new Int32Array(buffers[0]);
  if (new Uint8Array(buffers[1])[top] === IS_MINE) throw new Error(`node ${top} is on the stack, and an agent's`);
}

export const known = { endings: ["finished", "check"] };
