// Right: Lamport's bakery. Each draws a number greater than all that it sees, and the least number goes first.

export const setup = { agents: 3, buffers: [28], names: { COUNT: 0 } };

const COUNT = 0;
const CHOOSING = 1;
const NUMBER = 4;
const ROUNDS = 2;

function draw(words, self, agents) {
  Atomics.store(words, CHOOSING + self, 1);
  let greatest = 0;
  for (let other = 0; other < agents; other += 1) greatest = Math.max(greatest, Atomics.load(words, NUMBER + other));
  Atomics.store(words, NUMBER + self, greatest + 1);
  Atomics.store(words, CHOOSING + self, 0);
  return greatest + 1;
}

/** Of two agents with the same number, the one with the lesser place goes first. */
const goesFirst = (number, other, mine, self) => number !== 0 && (number < mine || (number === mine && other < self));

function lock(words, self, agents) {
  const mine = draw(words, self, agents);
  for (let other = 0; other < agents; other += 1) {
    if (other === self) continue;
    while (Atomics.load(words, CHOOSING + other) === 1);
    while (goesFirst(Atomics.load(words, NUMBER + other), other, mine, self));
  }
}

export default function agent({ buffers, agent: self, agents }) {
  const words = new Int32Array(buffers[0]);
  for (let time = 0; time < ROUNDS; time += 1) {
    lock(words, self, agents);
    words[COUNT] += 1;
    Atomics.store(words, NUMBER + self, 0);
  }
}

export const check = ([buffer], { agents }) => new Int32Array(buffer)[COUNT] === ROUNDS * agents;
