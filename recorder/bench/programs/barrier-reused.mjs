// Wrong: a barrier is used again at once: a fast agent comes in anew before a slow one has seen that it may leave.

export const setup = { agents: 3, buffers: [16] };

const COUNT = 0;
const PASSED = 1;

export default function agent({ buffers, agents }) {
  const words = new Int32Array(buffers[0]);
  for (let time = 0; time < 3; time += 1) {
    if (Atomics.add(words, COUNT, 1) === agents - 1) {
      Atomics.store(words, COUNT, 0);
      Atomics.notify(words, COUNT);
    } else {
      for (let count = Atomics.load(words, COUNT); count !== 0; count = Atomics.load(words, COUNT)) {
        Atomics.wait(words, COUNT, count);
      }
    }
    Atomics.add(words, PASSED, 1);
  }
}
