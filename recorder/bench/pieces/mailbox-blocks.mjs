// Right: a reader and a writer of blocks of numbers. Each waits for its turn at the block, half a second at a time.

export const setup = { agents: 2, buffers: [4, 16], names: { TURN: 0, block: ["Int32", 1] } };

const TURN = 0;
const WRITERS = 0;
const READERS = 1;
const BLOCK = 3;
const BLOCKS = 3;

/** Waits until the block is this side's. */
function waitForTurn(words, mine) {
  for (let turn = Atomics.load(words, TURN); turn !== mine; turn = Atomics.load(words, TURN)) {
    Atomics.wait(words, TURN, turn, 500);
  }
}

function write(words, block, numbers) {
  waitForTurn(words, WRITERS);
  block[0] = numbers.length;
  numbers.forEach((number, at) => { block[at + 1] = number; });
  Atomics.store(words, TURN, READERS);
  Atomics.notify(words, TURN);
}

function read(words, block) {
  waitForTurn(words, READERS);
  const numbers = [];
  for (let at = 1; at <= block[0]; at += 1) numbers.push(block[at]);
  Atomics.store(words, TURN, WRITERS);
  Atomics.notify(words, TURN);
  return numbers;
}

export default function agent({ buffers, agent: self }) {
  const words = new Int32Array(buffers[0]);
  const block = new Int32Array(buffers[1]);
  for (let time = 1; time <= BLOCKS; time += 1) {
    const numbers = Array.from({ length: time }, (_, at) => BLOCK * time + at);
    if (self === 0) {
      write(words, block, numbers);
      continue;
    }
    const found = read(words, block);
    if (`${found}` !== `${numbers}`) throw new Error(`it reads ${found} in place of ${numbers}`);
  }
}
