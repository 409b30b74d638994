// Right: Vyukov's bounded queue of many producers and consumers. Each cell has a number that says whose turn it is.

export const setup = { agents: 4, buffers: [16, 12], names: { TAIL: 0, HEAD: 1, cells: ["Int32", 1] } };

const TAIL = 0;
const HEAD = 1;
const TURNS = 2;
const CAPACITY = 2;
const SUM = 0;
const CELLS = 1;
const EACH = 2;

/** Takes the next position of one end once its cell's turn has come. */
function claim(words, end, offset) {
  for (;;) {
    const position = Atomics.load(words, end);
    const turn = Atomics.load(words, TURNS + (position % CAPACITY));
    if (turn !== position + offset) continue;
    if (Atomics.compareExchange(words, end, position, position + 1) === position) return position;
  }
}

function enqueue(words, cells, item) {
  const position = claim(words, TAIL, 0);
  cells[CELLS + (position % CAPACITY)] = item;
  Atomics.store(words, TURNS + (position % CAPACITY), position + 1);
}

function dequeue(words, cells) {
  const position = claim(words, HEAD, 1);
  const item = cells[CELLS + (position % CAPACITY)];
  Atomics.store(words, TURNS + (position % CAPACITY), position + CAPACITY);
  return item;
}

export const init = ([buffer]) => {
  for (let cell = 0; cell < CAPACITY; cell += 1) new Int32Array(buffer)[TURNS + cell] = cell;
};

export default function agent({ buffers, agent: self }) {
  const words = new Int32Array(buffers[0]);
  const cells = new Int32Array(buffers[1]);
  for (let time = 0; time < EACH; time += 1) {
    if (self < 2) enqueue(words, cells, 10 ** (EACH * self + time));
    else Atomics.add(cells, SUM, dequeue(words, cells));
  }
}

export const check = (buffers) => new Int32Array(buffers[1])[SUM] === 1111;
