// Wrong: the owner of a work-stealing deque takes the last task without asking the thieves, so it may be done twice.

export const setup = { agents: 2, buffers: [32] };

const TOP = 0;
const BOTTOM = 1;
const DONE = 2;
const TASKS = 3;

function pop(words) {
  const bottom = Atomics.sub(words, BOTTOM, 1) - 1;
  if (Atomics.load(words, TOP) <= bottom) return bottom;
  Atomics.store(words, BOTTOM, bottom + 1);
  return -1;
}

function steal(words) {
  const top = Atomics.load(words, TOP);
  if (top >= Atomics.load(words, BOTTOM)) return -1;
  return Atomics.compareExchange(words, TOP, top, top + 1) === top ? top : -1;
}

export default function agent({ buffers, agent: self }) {
  const words = new Int32Array(buffers[0]);
  if (self === 0) for (let task = 0; task < TASKS; task += 1) Atomics.add(words, BOTTOM, 1);
  for (let time = 0; time < TASKS; time += 1) {
    const task = self === 0 ? pop(words) : steal(words);
    if (task >= 0 && Atomics.exchange(words, DONE + task, 1) !== 0) throw new Error(`task ${task} is done twice`);
  }
}
