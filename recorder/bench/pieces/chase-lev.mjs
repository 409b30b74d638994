// Right: the work-stealing deque of Chase and Lev. Its owner pushes and takes at the bottom, thieves steal at the top.

export const setup = { agents: 3, buffers: [48], names: { TOP: 0, BOTTOM: 1 } };

const TOP = 0;
const BOTTOM = 1;
const SLOTS = 2;
const SIZE = 2;
const DONE = SLOTS + SIZE;
const TASKS = 6;

/** The owner's. It returns false if the deque is full. */
function push(words, task) {
  const bottom = Atomics.load(words, BOTTOM);
  if (bottom - Atomics.load(words, TOP) >= SIZE) return false;
  Atomics.store(words, SLOTS + (bottom % SIZE), task);
  Atomics.store(words, BOTTOM, bottom + 1);
  return true;
}

/** The owner's: the newest task, or 0. */
function take(words) {
  const bottom = Atomics.load(words, BOTTOM) - 1;
  Atomics.store(words, BOTTOM, bottom);
  const top = Atomics.load(words, TOP);
  if (top < bottom) return Atomics.load(words, SLOTS + (bottom % SIZE));
  const isLast = top === bottom && Atomics.compareExchange(words, TOP, top, top + 1) === top;
  Atomics.store(words, BOTTOM, bottom + 1);
  return isLast ? Atomics.load(words, SLOTS + (bottom % SIZE)) : 0;
}

/** A thief's: the oldest task, or 0. */
function steal(words) {
  const top = Atomics.load(words, TOP);
  const bottom = Atomics.load(words, BOTTOM);
  if (top >= bottom) return 0;
  const task = Atomics.load(words, SLOTS + (top % SIZE));
  return Atomics.compareExchange(words, TOP, top, top + 1) === top ? task : 0;
}

const perform = (words, task) => {
  if (task > 0 && Atomics.add(words, DONE + task, 1) !== 0) throw new Error(`task ${task} is done twice`);
};

export default function agent({ buffers, agent: self }) {
  const words = new Int32Array(buffers[0]);
  if (self > 0) {
    for (let time = 0; time < 4; time += 1) perform(words, steal(words));
    return;
  }
  for (let task = 1; task <= TASKS; task += 1) {
    while (!push(words, task)) perform(words, take(words));
    if (task % 2 !== 0) continue;
    perform(words, take(words));
    perform(words, take(words));
  }
  while (Atomics.load(words, TOP) < Atomics.load(words, BOTTOM)) perform(words, take(words));
}

export const check = ([buffer]) => new Int32Array(buffer).subarray(DONE + 1, DONE + 1 + TASKS).every((n) => n === 1);
