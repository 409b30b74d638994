// Right: Peterson's filter lock. On each level the last to come waits while another is there or further.

export const setup = { agents: 3, buffers: [24], names: { COUNT: 0 } };

const COUNT = 0;
const LEVEL = 1;
const LAST = 3;
const ROUNDS = 2;

/** Whether another agent is on this level or further. */
function isOtherThere(words, level, self, agents) {
  for (let other = 0; other < agents; other += 1) {
    if (other !== self && Atomics.load(words, LEVEL + other) >= level) return true;
  }
  return false;
}

function lock(words, self, agents) {
  for (let level = 1; level < agents; level += 1) {
    Atomics.store(words, LEVEL + self, level);
    Atomics.store(words, LAST + level, self);
    while (isOtherThere(words, level, self, agents) && Atomics.load(words, LAST + level) === self);
  }
}

export default function agent({ buffers, agent: self, agents }) {
  const words = new Int32Array(buffers[0]);
  for (let time = 0; time < ROUNDS; time += 1) {
    lock(words, self, agents);
    words[COUNT] += 1;
    Atomics.store(words, LEVEL + self, 0);
  }
}

export const check = ([buffer], { agents }) => new Int32Array(buffer)[COUNT] === ROUNDS * agents;
