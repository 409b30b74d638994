// Wrong: two readers that both want to become the writer wait for each other to leave.

export const setup = { agents: 3, buffers: [16] };

// How many readers there are, or -1 for a writer.
const STATE = 0;
const DATA = 1;

function enter(words) {
  for (;;) {
    const state = Atomics.load(words, STATE);
    if (state < 0) Atomics.wait(words, STATE, state);
    else if (Atomics.compareExchange(words, STATE, state, state + 1) === state) return;
  }
}

function upgrade(words) {
  for (;;) {
    const state = Atomics.compareExchange(words, STATE, 1, -1);
    if (state === 1) return;
    Atomics.wait(words, STATE, state);
  }
}

export default function agent({ buffers, agent: self }) {
  const words = new Int32Array(buffers[0]);
  for (let time = 0; time < 2; time += 1) {
    enter(words);
    Atomics.load(words, DATA);
    if (self > 0 && time === 1) {
      upgrade(words);
      Atomics.add(words, DATA, 1);
      Atomics.store(words, STATE, 0);
    } else {
      Atomics.sub(words, STATE, 1);
    }
    Atomics.notify(words, STATE);
  }
}
