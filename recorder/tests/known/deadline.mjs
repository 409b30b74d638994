// Right: who doesn't get the permit until its deadline goes without, and says so. Whose time is up has waited so long.

export const setup = { agents: 3, buffers: [12, 8] };

const PERMITS = 0;
const MISSED = 1;
const NAP = 2;

function acquired(words, milliseconds) {
  const deadline = performance.now() + milliseconds;
  for (;;) {
    if (Atomics.compareExchange(words, PERMITS, 1, 0) === 1) return true;
    const begin = performance.now();
    if (begin >= deadline) return false;
    const left = deadline - begin;
    const answer = Atomics.wait(words, PERMITS, 0, left);
    if (answer === "timed-out" && performance.now() < begin + left) throw new Error("the time wasn't up");
  }
}

function release(words) {
  Atomics.store(words, PERMITS, 1);
  Atomics.notify(words, PERMITS, 1);
}

export function init(buffers) {
  new Int32Array(buffers[0])[PERMITS] = 1;
}

export default function agent({ buffers }) {
  const words = new Int32Array(buffers[0]);
  const used = new Float64Array(buffers[1]);
  if (acquired(words, 50)) {
    used[0] += 1;
    Atomics.wait(words, NAP, 0, 20);
    release(words);
  } else {
    Atomics.add(words, MISSED, 1);
  }
}

export function check(buffers) {
  const [used] = new Float64Array(buffers[1]);
  const missed = new Int32Array(buffers[0])[MISSED];
  if (used + missed !== 3) throw new Error(`used ${used} times, and missed ${missed} times`);
}

export const known = { endings: ["finished"] };
