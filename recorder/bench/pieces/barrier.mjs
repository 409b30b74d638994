// Right: a barrier that is used again and again. The last to come counts the round on, which the others wait for.

export const setup = { agents: 3, buffers: [8, 12], names: { CAME: 0, ROUND: 1, numbers: ["Int32", 1] } };

const CAME = 0;
const ROUND = 1;

function meet(words, agents) {
  const round = Atomics.load(words, ROUND);
  if (Atomics.add(words, CAME, 1) === agents - 1) {
    Atomics.store(words, CAME, 0);
    Atomics.add(words, ROUND, 1);
    Atomics.notify(words, ROUND);
    return;
  }
  while (Atomics.load(words, ROUND) === round) Atomics.wait(words, ROUND, round);
}

export default function agent({ buffers, agent: self, agents }) {
  const words = new Int32Array(buffers[0]);
  const numbers = new Int32Array(buffers[1]);
  for (let time = 1; time <= 2; time += 1) {
    numbers[self] = time;
    meet(words, agents);
    for (const number of numbers) if (number !== time) throw new Error(`in round ${time} it reads ${number}`);
    meet(words, agents);
  }
}
