// Wrong: the slot's sequence says that it is full before the number is written.

export const setup = { agents: 2, buffers: [12, 8] };

const HEAD = 0;
const TAIL = 1;
const SEQUENCE = 2;

function push(words, numbers, number) {
  const position = Atomics.load(words, TAIL);
  if (Atomics.load(words, SEQUENCE) !== position) return;
  if (Atomics.compareExchange(words, TAIL, position, position + 1) !== position) return;
  Atomics.store(words, SEQUENCE, position + 1);
  numbers[0] = number;
}

function pop(words, numbers) {
  const position = Atomics.load(words, HEAD);
  if (Atomics.load(words, SEQUENCE) !== position + 1) return undefined;
  if (Atomics.compareExchange(words, HEAD, position, position + 1) !== position) return undefined;
  const number = numbers[0];
  Atomics.store(words, SEQUENCE, position + 1);
  return number;
}

export default function agent({ buffers, agent }) {
  const words = new Int32Array(buffers[0]);
  const numbers = new Float64Array(buffers[1]);
  if (agent === 0) push(words, numbers, 0.5);
  else if ((pop(words, numbers) ?? 0.5) !== 0.5) throw new Error("popped another number");
}

export const known = { endings: ["finished", "race"], races: [["numbers\\[0\\] = number", "number = numbers\\[0\\]"]] };
