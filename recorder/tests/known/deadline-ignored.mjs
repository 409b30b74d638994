// Wrong: whose time is up goes on as if it had the permit.

export const setup = { agents: 2, buffers: [4, 8] };

function acquire(words, milliseconds) {
  while (Atomics.exchange(words, 0, 1) !== 0) {
    if (Atomics.wait(words, 0, 1, milliseconds) === "timed-out") return;
  }
}

function release(words) {
  Atomics.store(words, 0, 0);
  Atomics.notify(words, 0, 1);
}

export default function agent({ buffers }) {
  const words = new Int32Array(buffers[0]);
  const used = new Float64Array(buffers[1]);
  acquire(words, 50);
  used[0] += 1;
  release(words);
}

export const known = { endings: ["finished", "race"], races: [["used\\[0\\] \\+= 1", "used\\[0\\] \\+= 1"]] };
