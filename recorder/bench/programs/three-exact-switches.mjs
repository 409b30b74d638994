// Wrong: agent 1 throws only after three changes of agents at just the right calls, among 200 others.

export const setup = { agents: 2, buffers: [32] };

const X = 0;
const Y = 1;
const Z = 2;
const OWN = 4;

export default function agent({ buffers, agent: self }) {
  const words = new Int32Array(buffers[0]);
  const work = (times) => {
    for (let time = 0; time < times; time += 1) Atomics.load(words, OWN + self);
  };
  work(30);
  if (self === 0) {
    Atomics.store(words, X, 1);
    Atomics.store(words, X, 0);
    work(30);
    Atomics.store(words, Z, Atomics.load(words, Y));
    Atomics.store(words, Z, 0);
  } else {
    Atomics.store(words, Y, Atomics.load(words, X));
    Atomics.store(words, Y, 0);
    work(30);
    if (Atomics.load(words, Z) === 1) throw new Error("three switches");
  }
  work(35);
}
