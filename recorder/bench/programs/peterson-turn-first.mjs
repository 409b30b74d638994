// Wrong: Peterson's lock gives the turn away before it raises its flag, so both may come in.

export const setup = { agents: 2, buffers: [16] };

const TURN = 2;
const INSIDE = 3;
const MANY_LOOKS = 300;

export default function agent({ buffers, agent: self }) {
  const words = new Int32Array(buffers[0]);
  const other = 1 - self;
  for (let time = 0; time < 3; time += 1) {
    Atomics.store(words, TURN, other);
    Atomics.store(words, self, 1);
    for (let look = 0; Atomics.load(words, other) === 1 && Atomics.load(words, TURN) === other; look += 1) {
      if (look > MANY_LOOKS) return;
    }
    if (Atomics.exchange(words, INSIDE, 1) !== 0) throw new Error("both are inside");
    Atomics.store(words, INSIDE, 0);
    Atomics.store(words, self, 0);
  }
}
