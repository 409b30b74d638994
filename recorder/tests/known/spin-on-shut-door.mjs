// Wrong: who comes while the door is open spins until it is seen, but nobody looks any more.

export const setup = { agents: 2, buffers: [12] };

const DOOR = 0;
const SEEN = 1;
const PREPARED = 2;

export default function agent({ buffers, agent }) {
  const words = new Int32Array(buffers[0]);
  if (agent === 0) {
    for (let time = 0; time < 3; time += 1) Atomics.add(words, PREPARED, 1);
    Atomics.store(words, DOOR, 1);
    Atomics.store(words, DOOR, 0);
  } else if (Atomics.load(words, DOOR) === 1) {
    while (Atomics.load(words, SEEN) === 0);
  }
}

export const known = { endings: ["finished", "limit"] };
