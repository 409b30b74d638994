// Wrong: an agent that gave way to the other raises its flag again and goes in, without another look at the other's.

export const setup = { agents: 2, buffers: [16] };

const TURN = 2;
const INSIDE = 3;
const MANY_LOOKS = 300;

function enter(words, self) {
  const other = 1 - self;
  Atomics.store(words, self, 1);
  if (Atomics.load(words, other) === 0) return true;
  if (Atomics.load(words, TURN) === self) {
    for (let look = 0; look < MANY_LOOKS; look += 1) {
      if (Atomics.load(words, other) === 0) return true;
    }
    return false;
  }
  Atomics.store(words, self, 0);
  for (let look = 0; Atomics.load(words, TURN) !== self; look += 1) {
    if (look > MANY_LOOKS) return false;
  }
  Atomics.store(words, self, 1);
  return true;
}

export default function agent({ buffers, agent: self }) {
  const words = new Int32Array(buffers[0]);
  for (let time = 0; time < 2; time += 1) {
    if (!enter(words, self)) return;
    if (Atomics.exchange(words, INSIDE, 1) !== 0) throw new Error("both are inside");
    Atomics.store(words, INSIDE, 0);
    Atomics.store(words, TURN, 1 - self);
    Atomics.store(words, self, 0);
  }
}
