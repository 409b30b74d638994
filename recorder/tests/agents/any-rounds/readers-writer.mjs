// A lock of one writer or at most two readers, for any number of rounds: an agent chooses each time what it is.

export const setup = { agents: 3, buffers: [8], names: { LOCK: 0, VALUE: 1 } };

const WRITER = -1;
const MOST_READERS = 2;

export default function agent({ buffers, again, choose }) {
  const words = new Int32Array(buffers[0]);
  const enter = (isFree, next) => {
    for (;;) {
      const state = Atomics.load(words, 0);
      if (!isFree(state)) Atomics.wait(words, 0, state);
      else if (Atomics.compareExchange(words, 0, state, next(state)) === state) return;
    }
  };
  while (again()) {
    if (choose(2) === 0) {
      enter((state) => state >= 0 && state < MOST_READERS, (state) => state + 1);
      if (words[1] !== 0) throw new Error("a reader sees a writer");
      Atomics.sub(words, 0, 1);
    } else {
      enter((state) => state === 0, () => WRITER);
      words[1] = 1;
      words[1] = 0;
      Atomics.store(words, 0, 0);
    }
    Atomics.notify(words, 0);
  }
}
